# Messages: to one object, to a place, and to those who are where the player is; who hears them, in which order, and where they go.
--- /std/player.c
// One with a connection.
int logon() { enable_commands(); return "/secure/master"->arrived(this_object()); }
string say_to(object o, string s) { return "" + tell_object(o, s); }
int says(string s) { return say(s); }
--- /std/hearer.c
// One without, who notes what it is told, and lets the master do something then.
void lives() { enable_commands(); }
mixed catch_tell(string s) { "/secure/master"->note(sprintf("%s hears %O, ", load_name()[5..], s)); return "/secure/master"->heard(this_object()); }
--- /std/guard.c
inherit "/std/hearer";
--- /std/thief.c
inherit "/std/hearer";
--- /obj/sword.c
--- /room/hall.c
--- /secure/master.c
#define SHOW(e) error = catch(value = e); note(error ? error : sprintf("%O\n", value));
mixed error, value;
string notes;
object player, guard, thief, sword, hall, gone, dies;
int fails;
void note(string s) { notes += s; }
void tell_notes() { if (player) tell_object(player, notes); else write(notes); }
mixed heard(object o) { if (dies) destruct(dies); if (fails) raise_error("ouch"); return 5; }
object connect() {
  notes = "notes: ";
  player = clone_object("/std/player"); guard = load_object("/std/guard"); thief = load_object("/std/thief");
  hall = load_object("/room/hall"); sword = clone_object("/obj/sword"); gone = clone_object("/obj/sword"); destruct(gone);
  thief->lives(); guard->lives();
  move_object(thief, hall); move_object(sword, player); move_object(player, hall); move_object(guard, hall);
  return player;
}
int arrived(object o) { @@ tell_notes(); return 1; }
--- play
connect 1
end

=== to_one_with_a_connection
# The text goes to the connection; the answer is 0.
code: SHOW(tell_object(player, "hello\n"))
gives: "hello\nnotes: 0\n"

=== to_one_without
# `catch_tell` is applied with the text, also with an empty one, and what it answers counts for nothing.
code: SHOW(tell_object(guard, "hello")) SHOW(tell_object(guard, ""))
gives: "notes: guard hears \"hello\", 0\nguard hears \"\", 0\n"

=== to_one_that_cannot_hear
# A missing `catch_tell` is nothing.
code: SHOW(tell_object(sword, "hello"))
gives: "notes: 0\n"

=== to_nobody
# An object that ended is none, and only a text is told.
code: SHOW(tell_object(gone, "hello")) SHOW(tell_object(player, 1)) SHOW(tell_object(gone, 1)) SHOW(tell_object("/std/guard", "hello"))
gives: "notes: *Bad argument 1 to tell_object\n*Bad argument 2 to tell_object\n*Bad argument 1 to tell_object\n*Bad argument 1 to tell_object\n"

=== written_to_a_connection
# A text as it is, an integer in decimal, an object by its name, and of an array or mapping what it is. An object that ended is 0.
code: SHOW(write("hello\n")) SHOW(write(-12)) SHOW(write(sword)) SHOW(write(({ 1 }))) SHOW(write(([ 1: 2 ]))) SHOW(write(gone))
gives: "hello\n-12/obj/sword#2<ARRAY><MAPPING>0notes: 0\n0\n0\n0\n0\n0\n"

=== written_to_an_object
# Where `this_player()` has no connection, `catch_tell` is applied in it.
code: guard->lives(); SHOW(write("hello")) SHOW(printf("%d of %s", 3, "x"))
gives: "notes: guard hears \"hello\", 0\nguard hears \"3 of x\", 0\n"

=== written_to_the_log
# Where there is no `this_player()` each text is a record of its own, also an empty one.
code: "/later"->begin();
--- /later.c
void begin() { call_out("later", 0); }
void later() { write("hello"); printf("a%%"); write(""); write(5); }
--- play
connect 1
tick 0
end
--- written
to 1: "notes: "
log: "hello"
log: "a%"
log: ""
log: "5"
end

=== written_to_a_player_that_ended
# So it is where `this_player()` was destructed.
code: destruct(player); SHOW(write("hello")) SHOW(printf("a%%"))
--- written
close 1
log: "hello"
log: "a%"
log: "notes: 0\n0\n"
end

=== printed
# What the form makes is written, and its faults are those of `printf`.
code: SHOW(printf("%s %d\n", "a", 5)) SHOW(printf("%O\n", ({ 1, "b" })))
code: SHOW(printf("%s %d", "a")) SHOW(printf("%")) SHOW(printf("%d", "a")) SHOW(printf(1))
gives: "a 5\n({ 1, \"b\" })\nnotes: 0\n0\n*Too few arguments\n*Bad format\n*Bad argument 2 to printf\n*Bad argument 1 to printf\n"

=== told_to_a_room
# Each living thing there hears it, the latest first; the sword does not, and lies in the player besides.
code: SHOW(tell_room(hall, "hi\n"))
gives: "hi\nnotes: guard hears \"hi\\n\", thief hears \"hi\\n\", 0\n"

=== one_ends_before_its_turn
# It is left out, and the others hear it.
code: dies = thief; SHOW(tell_room(hall, "hi\n"))
gives: "hi\nnotes: guard hears \"hi\\n\", 0\n"

=== the_room_ends_meanwhile
# Those who were there hear it nevertheless.
code: dies = hall; SHOW(tell_room(hall, "hi\n"))
gives: "hi\nnotes: guard hears \"hi\\n\", thief hears \"hi\\n\", 0\n"

=== one_fails
# An error in `catch_tell` goes to the caller, and those whose turn had not come do not hear it.
code: fails = 1; SHOW(tell_room(hall, "hi\n")) SHOW(tell_object(thief, "ho\n")) SHOW(tell_object(player, "hu\n"))
gives: "hu\nnotes: guard hears \"hi\\n\", *ouch\nthief hears \"ho\\n\", *ouch\n0\n"

=== told_where_nobody_lives
# In the player there is only a sword, and in the sword nothing.
code: SHOW(tell_room(player, "hi")) SHOW(tell_room(sword, "hi"))
gives: "notes: 0\n0\n"

=== told_to_no_room
# An object that ended is none, and only a text is told.
code: SHOW(tell_room(gone, "hi")) SHOW(tell_room(hall, 1)) SHOW(tell_room("/room/hall", "hi"))
gives: "notes: *Bad argument 1 to tell_room\n*Bad argument 2 to tell_room\n*Bad argument 1 to tell_room\n"

=== said_by_the_player
# All who are where it is hear it, without the player itself.
code: SHOW(say("hi\n")) SHOW(say(1))
gives: "notes: guard hears \"hi\\n\", thief hears \"hi\\n\", 0\n*Bad argument 1 to say\n"

=== said_by_another
# It is `this_player()` who says it, whoever calls the efun.
code: guard->lives(); SHOW(player->says("hi\n"))
gives: "hi\nnotes: thief hears \"hi\\n\", 0\n"

=== said_by_this_object
# Where there is no `this_player()`, or it was destructed, it is this object who says it.
code: "/later"->begin(player);
--- /later.c
object player;
void begin(object o) { player = o; call_out("later", 0); }
void later() {
  object o;
  player->says("hi\n");
  o = clone_object("/std/guard");
  o->lives();
  destruct(o);
  player->says("ho\n");
  "/secure/master"->tell_notes();
}
--- play
connect 1
tick 0
end
--- written
to 1: "notes: "
to 1: "notes: guard hears \"hi\\n\", thief hears \"hi\\n\", guard hears \"ho\\n\", thief hears \"ho\\n\", "
end

=== said_to_nobody
# Where the player is nowhere, nobody hears what it says.
code: object o; o = clone_object("/std/guard"); o->lives(); SHOW(player->says("ho\n"))
gives: "notes: 0\n"
