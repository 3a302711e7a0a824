# What objects know of themselves and of one another: names, callers, places, connections, hearts, and what a function of an object that ended
# still may ask. In the hall are the player, who holds a sword, and a sword with a number, in this order; a cloak shadows the player.
moment: 1000
--- /obj/sword.c
--- /obj/dead.c
--- /obj/cloak.c
int covers(object o) { return shadow(o); }
void uncovers() { unshadow(); }
--- /room/hall.c
// It is called between the master and the player.
int passes(object o) { return o->asks(); }
--- /std/player.c
#define SHOW(e) error = catch(value = e); if (error) write(stringp(error) ? error : sprintf("thrown %O\n", error)); else printf("%O\n", value);
mixed error, value;
object player, other, sword, blade, cloak, hall, gone;
void knows(object *all) {
  player = all[0]; other = all[1]; sword = all[2]; blade = all[3]; cloak = all[4]; hall = all[5]; gone = all[6];
}
int beats(int n) { return set_heart_beat(n); }
mixed enables() { enable_commands(); return this_player(); }
int finds(string s) { return find_call_out(s); }
int removes(string s) { return remove_call_out(s); }
int logon() { return "/secure/master"->passes(this_object()); }
int asks() { @@ return 1; }
void late() { }
void beat() { }
void later() { asks(); }
--- /secure/master.c
int query_allow_shadow(object o) { return 1; }
int passes(object o) { return "/room/hall"->passes(o); }
object connect() {
  object *all;
  all = ({ clone_object("/std/player"), clone_object("/std/player"), load_object("/obj/sword"), clone_object("/obj/sword"), load_object("/obj/cloak"),
    load_object("/room/hall"), clone_object("/obj/sword") });
  move_object(all[3], all[5]); move_object(all[0], all[5]); move_object(all[2], all[0]);
  all[4]->covers(all[0]);
  destruct(load_object("/obj/dead"));
  all[0]->knows(all); all[1]->knows(all);
  destruct(all[6]);
  return all[0];
}
--- play
connect 1
end

=== who
# This object, the one with whom the turn deals, and the callers, the latest first: the hall was called by the master, and that by the player.
# Nobody stands behind them, and in front.
code: SHOW(this_object()) SHOW(this_player()) SHOW(this_interactive()) SHOW(previous_object()) SHOW(previous_object(0)) SHOW(previous_object(1))
code: SHOW(previous_object(2)) SHOW(previous_object(3)) SHOW(previous_object(-1)) SHOW(previous_object(-9223372036854775807 - 1))
code: SHOW(previous_object(9223372036854775807)) SHOW(previous_object(gone)) SHOW(query_verb()) SHOW(notify_fail("no"))
gives: "/std/player#1\n/std/player#1\n/std/player#1\n/room/hall\n/room/hall\n/secure/master\n"
       "/std/player#1\n0\n0\n0\n0\n/room/hall\n0\n0\n"

=== found_by_name
# With or without the stroke in front, and one `.c` at the end; names are told apart by capitals, and what ended has none.
code: SHOW(find_object("/obj/sword")) SHOW(find_object("obj/sword")) SHOW(find_object("/obj/sword.c")) SHOW(find_object("obj/sword.c"))
code: SHOW(find_object("/obj/sword.c.c")) SHOW(find_object("//obj/sword")) SHOW(find_object("/obj/sword#3")) SHOW(find_object("/obj/sword#8"))
code: SHOW(find_object("/obj/dead")) SHOW(find_object("")) SHOW(find_object(".c")) SHOW(find_object("/Obj/sword")) SHOW(find_object("/obj/sword#4"))
gives: "/obj/sword\n/obj/sword\n/obj/sword\n/obj/sword\n0\n0\n/obj/sword#3\n0\n0\n0\n0\n0\n0\n"

=== names
# Of this object, or of another; with a number, before it, and of the program.
code: SHOW(object_name()) SHOW(object_name(blade)) SHOW(object_name(hall)) SHOW(load_name()) SHOW(load_name(blade)) SHOW(load_name(sword))
code: SHOW(load_name(hall)) SHOW(program_name()) SHOW(program_name(hall)) SHOW(program_name(blade))
gives: "\"/std/player#1\"\n\"/obj/sword#3\"\n\"/room/hall\"\n\"/std/player\"\n\"/obj/sword\"\n\"/obj/sword\"\n"
       "\"/room/hall\"\n\"/std/player.c\"\n\"/room/hall.c\"\n\"/obj/sword.c\"\n"

=== clones
# Objects with a number; their names are none.
code: SHOW(clonep(blade)) SHOW(clonep(sword)) SHOW(clonep(gone)) SHOW(clonep("/obj/sword#3")) SHOW(clonep(({ blade })))
code: SHOW(objectp(player)) SHOW(objectp(gone)) SHOW(intp(gone)) SHOW(copy(blade)) SHOW(to_string(blade)) SHOW(sizeof(gone)) SHOW(sizeof(hall))
gives: "1\n0\n0\n0\n0\n1\n0\n1\n/obj/sword#3\n\"/obj/sword#3\"\n0\n*Bad argument 1 to sizeof\n"

=== places
# Where something is, and what is in it, the latest first.
code: SHOW(environment()) SHOW(environment(sword)) SHOW(environment(hall)) SHOW(all_inventory()) SHOW(all_inventory(hall)) SHOW(all_inventory(blade))
code: SHOW(first_inventory()) SHOW(first_inventory(hall)) SHOW(first_inventory(blade))
gives: "/room/hall\n/std/player#1\n0\n({ /obj/sword })\n({ /std/player#1, /obj/sword#3 })\n({ })\n/obj/sword\n/std/player#1\n0\n"

=== shadows
# Whom a shadow shadows; it ends by its own efun alone.
code: SHOW(query_shadowing(cloak)) SHOW(query_shadowing(player)) SHOW(unshadow()) SHOW(query_shadowing(cloak))
code: cloak->uncovers(); SHOW(query_shadowing(cloak))
gives: "/std/player#1\n0\n0\n/std/player#1\n0\n"

=== living
# Who enabled its commands is living, and becomes `this_player()`, to whom what is written goes.
code: string all;
code: all = sprintf("%O %O %O %O %O", living(player), other->enables(), this_player(), living(other), living(player));
code: write("This is lost: the other one has no connection."); all += sprintf(" %O", enable_commands()); write(all + sprintf(" %O %O\n", living(player), this_player()));
gives: "0 /std/player#2 /std/player#2 1 0 0 1 /std/player#1\n"

=== hearts
# 1 where it changed: any integer but 0 lets a heart beat.
code: SHOW(beats(1)) SHOW(beats(-5)) SHOW(other->beats(0)) SHOW(beats(0)) SHOW(beats(0)) SHOW(beats(-9223372036854775807 - 1))
gives: "1\n0\n0\n1\n0\n1\n"

=== connections
# A connection goes from one to the other, where that has none; the answers are told at the end, in the log.
code: string all;
code: all = sprintf("%O %O %O %O %O, ", interactive(), interactive(player), interactive(other), users(), exec(other, hall));
code: all += sprintf("%O %O %O %O %O %O, ", exec(player, player), exec(other, player), interactive(), interactive(other), users(), this_interactive());
code: all += sprintf("%O %O %O %O %O, ", exec(other, player), exec(other, other), exec(player, other), remove_interactive(other), users());
code: all += sprintf("%O %O %O %O", remove_interactive(player), users(), interactive(), exec(other, player));
code: other->enables(); destruct(other); write(all);
--- written
close 1
log: "1 1 0 ({ /std/player#1 }) 0, 0 1 0 1 ({ /std/player#2 }) /std/player#1, 0 0 1 0 ({ /std/player#1 }), 0 ({ }) 0 0"
end

=== call_outs
# What is left until the earliest of a function of this object, 0 where it is due, and -1 where there is none. Names are told apart by capitals.
code: if (this_player()) { call_out("later", 0); call_out("late", 0); call_out("beat", 20); call_out("beat", 13); return 1; }
code: SHOW(time()) SHOW(find_call_out("beat")) SHOW(find_call_out("late")) SHOW(find_call_out("other")) SHOW(find_call_out("")) SHOW(remove_call_out("Beat"))
code: SHOW(other->finds("beat")) SHOW(other->removes("beat")) SHOW(remove_call_out("beat")) SHOW(find_call_out("beat")) SHOW(find_call_out("late"))
code: SHOW(remove_call_out("beat")) SHOW(remove_call_out("beat")) SHOW(find_call_out("late")) SHOW(remove_call_out("late")) SHOW(find_call_out("late"))
code: SHOW(query_verb()) SHOW(notify_fail("no")) SHOW(this_player()) SHOW(this_interactive())
--- play
connect 1
tick 1010
end
--- written
log: "1010\n"
log: "3\n"
log: "0\n"
log: "-1\n"
log: "-1\n"
log: "-1\n"
log: "-1\n"
log: "-1\n"
log: "3\n"
log: "10\n"
log: "0\n"
log: "10\n"
log: "-1\n"
log: "0\n"
log: "0\n"
log: "-1\n"
log: "0\n"
log: "0\n"
log: "0\n"
log: "0\n"
end

=== errors
# What is thrown is caught as it is; a text that is raised ends with one newline, and is cut after its first 1000 letters.
code: SHOW(throw(7)) SHOW(throw("up\n")) SHOW(throw(({ 1, gone }))) SHOW(({ catch(throw(gone)) })) SHOW(raise_error("down")) SHOW(raise_error("down\n"))
code: SHOW(raise_error("down\n\n")) SHOW(raise_error("")) SHOW(abs(-9223372036854775807 - 1)) SHOW(allocate(-1)) SHOW(allocate(10001))
code: SHOW(strlen(catch(raise_error(sprintf("%1000s", "ä"))))) SHOW(strlen(catch(raise_error(sprintf("%1001s", "ä")))))
gives: "thrown 7\nup\nthrown ({ 1, 0 })\n({ 0 })\n*down\n*down\n*down\n\n*\n*Overflow\n*Bad argument 1 to allocate\n*Array too long\n1002\n1002\n"

=== a_function_of_one_that_ended
# It goes on to its end, without an object; what takes one for granted is refused, and what changes it does nothing.
code: "/obj/ends"->ends(this_object());
gives: "0\n*Bad argument 1 to object_name\n*Bad argument 1 to load_name\n*Bad argument 1 to program_name\n*Bad argument 1 to interactive\n"
       "*Bad argument 1 to environment\n*Bad argument 1 to all_inventory\n*Bad argument 1 to first_inventory\n0\n*Bad argument 1 to set_heart_beat\n"
       "0\n/std/player#1\n0\n-1\n-1\n"
--- /obj/ends.c
#define SHOW(e) error = catch(value = e); if (error) write(error); else printf("%O\n", value);
mixed error, value;
void beat() { }
void ends(object player) {
  call_out("beat", 5);
  destruct(this_object());
  SHOW(this_object()) SHOW(object_name()) SHOW(load_name()) SHOW(program_name()) SHOW(interactive()) SHOW(environment())
  SHOW(all_inventory()) SHOW(first_inventory()) SHOW(set_heart_beat(1)) SHOW(set_heart_beat("a")) SHOW(enable_commands()) SHOW(this_player())
  SHOW(unshadow()) SHOW(find_call_out("beat")) SHOW(remove_call_out("beat"))
}

=== commands_in_commands
# The verb is that of the innermost, and so is the text of a refusal: the outer one has its own.
--- /std/player.c
int logon() { enable_commands(); add_action("look", "look"); add_action("get", "get"); return 1; }
void knows(object *all) { }
int look(string s) {
  printf("%O %O %O\n", query_verb(), command("get it"), query_verb());
  return 0;
}
int get(string s) { printf("%O %O %O\n", query_verb(), s, notify_fail("You cannot.\n")); printf("%O\n", query_verb()); return 0; }
--- play
connect 1
line 1: look
end
--- written
to 1: "\"get\" \"it\" 0\n\"get\"\nYou cannot.\n\"look\" 0 \"look\"\nWhat?\n"
end
