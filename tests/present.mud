# `present`: an object where it is looked for, or the first that calls itself by a text. In the hall are the guard, the player, who holds a
# sword with a number, and a sword, in this order.
--- /thing.c
// It notes that it is asked, lets the master do something then, and answers what the master says.
mixed id(string s) { return "/secure/master"->asked(this_object(), s); }
--- /player.c
inherit "/thing";
mixed looks(mixed a) { return present(a); }
mixed looks_in(mixed a, mixed b) { return present(a, b); }
int logon() { return "/secure/master"->arrived(); }
--- /guard.c
inherit "/thing";
--- /sword.c
inherit "/thing";
--- /hall.c
inherit "/thing";
--- /event.c
// What an object answers that is asked as the n-th.
mixed answers(int n) { return 0; }
--- /secure/master.c
#define LOOK(a) notes = ""; count = 0; error = catch(value = player->looks(a)); write(notes + (error ? error : sprintf("%O\n", value)));
#define LOOK_IN(a, b) notes = ""; count = 0; error = catch(value = player->looks_in(a, b)); write(notes + (error ? error : sprintf("%O\n", value)));
mixed error, value;
string notes;
int count;
object player, guard, sword, blade, hall, gone;
mixed asked(object o, string s) { notes += object_name(o)[1..] + " is asked for " + s + ", "; return "/event"->answers(++count); }
object connect() {
  hall = load_object("/hall"); player = clone_object("/player"); guard = load_object("/guard");
  sword = load_object("/sword"); blade = clone_object("/sword"); gone = clone_object("/sword"); destruct(gone);
  move_object(sword, hall); move_object(player, hall); move_object(guard, hall); move_object(blade, player);
  return player;
}
int arrived() { @@ return 1; }
--- play
connect 1
end

=== objects_here
# In this object, or where it is; itself too, for it is where it is. The place itself is not.
code: LOOK(blade) LOOK(sword) LOOK(player) LOOK(guard) LOOK(this_object()) LOOK(hall) LOOK(gone) LOOK(5)
gives: "/sword#2\n/sword\n/player#1\n/guard\n0\n0\n*Bad argument 1 to present\n*Bad argument 1 to present\n"

=== objects_in_another
# In the second argument alone.
code: LOOK_IN(guard, hall) LOOK_IN(guard, player) LOOK_IN(blade, player) LOOK_IN(blade, hall) LOOK_IN(hall, hall)
gives: "/guard\n0\n/sword#2\n0\n0\n"

=== no_place
# The second argument is a live object.
code: LOOK_IN("x", 1) LOOK_IN("x", gone) LOOK_IN(blade, "/hall") LOOK_IN(gone, gone)
gives: "*Bad argument 2 to present\n*Bad argument 2 to present\n*Bad argument 2 to present\n*Bad argument 1 to present\n"

=== the_first_that_says_so
# What is in this object is asked first.
code: LOOK("sword")
gives: "sword#2 is asked for sword, /sword#2\n"
--- /event.c
mixed answers(int n) { return 1; }

=== here_after_what_it_holds
# Then all that is where it is, in order; itself too.
code: LOOK("sword")
gives: "sword#2 is asked for sword, guard is asked for sword, player#1 is asked for sword, sword is asked for sword, /sword\n"
--- /event.c
mixed answers(int n) { return n == 4; }

=== any_answer_but_0
# An empty text says so too, and an object that ended does not.
code: LOOK("x")
gives: "sword#2 is asked for x, guard is asked for x, /guard\n"
--- /event.c
mixed answers(int n) { object o; if (n == 2) return ""; o = clone_object("/thing"); destruct(o); return o; }

=== none_says_so
# Then it is 0.
code: LOOK("x")
gives: "sword#2 is asked for x, guard is asked for x, player#1 is asked for x, sword is asked for x, 0\n"

=== one_ends_before_its_turn
# It is left out.
code: LOOK("x")
gives: "sword#2 is asked for x, player#1 is asked for x, sword is asked for x, 0\n"
--- /event.c
mixed answers(int n) { if (n == 1) destruct(find_object("/guard")); return 0; }

=== the_place_ends_meanwhile
# Then nobody is there any more.
code: LOOK("x")
gives: "sword#2 is asked for x, 0\n"
--- /event.c
mixed answers(int n) { destruct(find_object("/hall")); return 0; }

=== it_ends_as_it_says_so
# It is not there any more.
code: LOOK("x")
gives: "sword#2 is asked for x, 0\n"
--- /event.c
mixed answers(int n) { destruct(find_object("/sword#2")); return 1; }

=== by_a_text_in_another
# Only what is there is asked.
code: LOOK_IN("x", hall) LOOK_IN("x", sword)
gives: "guard is asked for x, player#1 is asked for x, sword is asked for x, 0\n0\n"

=== one_fails
# The error goes to the caller, and the others are not asked.
code: LOOK("x")
gives: "sword#2 is asked for x, guard is asked for x, *ouch\n"
--- /event.c
mixed answers(int n) { if (n == 2) raise_error("ouch"); return 0; }
