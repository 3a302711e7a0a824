# Moves of an object into another, with the calls of `init` that follow, for whom they are made, and objects that leave or end meanwhile.
# In the hall are the guard, the player, who holds a sword with a number, and a living sword, in this order.
--- /thing.c
void lives() { enable_commands(); }
void init() { "/secure/master"->came(this_object(), this_player()); }
--- /player.c
inherit "/thing";
int logon() { lives(); return "/secure/master"->arrived(); }
--- /guard.c
inherit "/thing";
--- /sword.c
inherit "/thing";
--- /hall.c
inherit "/thing";
--- /event.c
// What happens in the call of `init` with a number.
void happens(int n) { }
--- /secure/master.c
// The calls of `init`, the answer or the error, and who is `this_player()` then.
#define MOVE(e) notes = ""; error = catch(value = e); write(notes + (error ? error : value + " for ") + who(this_player()) + "\n");
mixed error, value;
string notes;
int count;
object player, guard, sword, blade, hall, gone;
string who(object o) { return o ? object_name(o)[1..] : "nobody"; }
void came(object item, object o) { notes += who(item) + " sees " + who(o) + ", "; "/event"->happens(++count); }
object connect() {
  notes = "";
  hall = load_object("/hall"); player = clone_object("/player"); guard = load_object("/guard");
  sword = load_object("/sword"); blade = clone_object("/sword"); gone = clone_object("/sword"); destruct(gone);
  move_object(sword, hall); move_object(player, hall); move_object(guard, hall); move_object(blade, player);
  sword->lives(); guard->lives(); player->lives();
  return player;
}
int arrived() { @@ return 1; }
void later() { MOVE(move_object(player, hall)) }
--- play
connect 1
end

=== living_into_a_place
# First the place's `init` for the item; then for each other object there, in order, the item's for it if that is living, and its for the
# item; at last the item's for the place, which is not living. `this_player()` is put back.
code: MOVE(move_object(player, hall))
gives: "hall sees player#1, player#1 sees guard, guard sees player#1, player#1 sees sword, sword sees player#1, 0 for player#1\n"

=== a_thing_into_a_place
# What is not living is nobody's player: only its own, for each that is living.
code: MOVE(move_object(blade, hall))
gives: "sword#2 sees guard, sword#2 sees player#1, sword#2 sees sword, 0 for player#1\n"

=== living_into_living
# The player's for the guard, the sword's that the player holds, and the guard's for the player.
code: MOVE(move_object(guard, player))
gives: "player#1 sees guard, sword#2 sees guard, guard sees player#1, 0 for player#1\n"

=== a_thing_where_nobody_lives
# Nothing is called.
code: MOVE(move_object(blade, this_object()))
gives: "0 for player#1\n"

=== a_place_by_its_name
# A text names an object that is there, with or without what stands before and behind its name.
code: MOVE(move_object(blade, "/hall")) MOVE(move_object(blade, "guard.c"))
gives: "sword#2 sees guard, sword#2 sees player#1, sword#2 sees sword, 0 for player#1\nsword#2 sees guard, 0 for player#1\n"

=== for_another_player
# It is put back whoever it was.
code: "/hermit"->comes(); notes = ""; move_object(blade, hall); tell_object(player, notes + who(this_player()) + "\n");
--- /hermit.c
void comes() { enable_commands(); }
--- written
to 1: "sword#2 sees guard, sword#2 sees player#1, sword#2 sees sword, hermit\n"
end

=== for_nobody
# Where there is no player there is none afterwards.
code: call_out("later", 0);
--- play
connect 1
tick 0
end
--- written
log: "hall sees player#1, player#1 sees guard, guard sees player#1, player#1 sees sword, sword sees player#1, 0 for nobody\n"
end

=== a_place_that_is_loaded
# It is loaded first.
code: MOVE(move_object(blade, "cell.c")) write(who(environment(blade)) + "\n");
gives: "The cell is loaded.\n0 for player#1\ncell\n"
--- /cell.c
void create() { write("The cell is loaded.\n"); }

=== a_place_that_ends_as_it_is_loaded
# It is no target, and the item stays where it is.
code: MOVE(move_object(blade, "/cell")) write(who(environment(blade)) + "\n");
gives: "*Bad target\nplayer#1\nplayer#1\n"
--- /cell.c
void create() { destruct(this_object()); }

=== an_item_that_ends_as_the_place_is_loaded
# It is no target either.
code: MOVE(move_object(blade, "/cell"))
gives: "*Bad target\nplayer#1\n"
--- /cell.c
void create() { destruct(find_object("/sword#2")); }

=== a_place_that_cannot_be_loaded
# The error goes to the caller, and the item stays.
code: MOVE(move_object(blade, "/none")) write(who(environment(blade)) + "\n");
--- written
log: "/none.c line 0: no such file"
to 1: "*Could not load /none\nplayer#1\nplayer#1\n"
end

=== no_place_of_this_name
# A name with a number is never loaded.
code: MOVE(move_object(blade, "/none#1"))
gives: "*Bad target\nplayer#1\n"

=== it_would_contain_itself
# As it is, in what it holds, in what that holds, and by its name.
code: MOVE(move_object(hall, hall)) MOVE(move_object(hall, player)) MOVE(move_object(hall, blade)) MOVE(move_object(hall, "/player#1"))
gives: "*Would contain itself\nplayer#1\n*Would contain itself\nplayer#1\n*Would contain itself\nplayer#1\n*Would contain itself\nplayer#1\n"

=== no_item_and_no_place
# Objects that ended are neither, and an item is not given by its name.
code: MOVE(move_object(1, hall)) MOVE(move_object(gone, hall)) MOVE(move_object(blade, 0)) MOVE(move_object(blade, gone))
code: MOVE(move_object("/sword", hall)) MOVE(move_object(gone, gone))
gives: "*Bad argument 1 to move_object\nplayer#1\n*Bad argument 1 to move_object\nplayer#1\n"
       "*Bad argument 2 to move_object\nplayer#1\n*Bad argument 2 to move_object\nplayer#1\n"
       "*Bad argument 1 to move_object\nplayer#1\n*Bad argument 1 to move_object\nplayer#1\n"

=== the_item_leaves_meanwhile
# Once it is elsewhere, nothing more is called for this move.
code: MOVE(move_object(player, hall))
gives: "hall sees player#1, 0 for player#1\n"
--- /event.c
void happens(int n) { if (n == 1) move_object(find_object("/player#1"), find_object("/secure/master")); }

=== one_ends_meanwhile
# It is left out; the others follow.
code: MOVE(move_object(player, hall))
gives: "hall sees player#1, player#1 sees sword, sword sees player#1, 0 for player#1\n"
--- /event.c
void happens(int n) { if (n == 1) destruct(find_object("/guard")); }

=== the_place_ends_meanwhile
# Then nothing more is called.
code: MOVE(move_object(player, hall))
gives: "hall sees player#1, player#1 sees guard, 0 for player#1\n"
--- /event.c
void happens(int n) { if (n == 2) destruct(find_object("/hall")); }

=== one_leaves_meanwhile
# The list of others was made when the move began: one that left when it had its turn changes nothing for those behind it.
code: MOVE(move_object(player, hall))
gives: "hall sees player#1, player#1 sees guard, guard sees player#1, player#1 sees sword, sword sees player#1, 0 for player#1\n"
--- /event.c
void happens(int n) { if (n == 3) move_object(find_object("/guard"), find_object("/secure/master")); }

=== the_first_call_fails
# The error goes to the caller of the move; the item stays in its new place, and `this_player()` is put back.
code: "/hermit"->comes(); move_object(player, this_object()); notes = ""; count = 0; error = catch(move_object(player, hall));
code: tell_object(player, notes + error + who(this_player()) + " " + who(environment(player)) + "\n");
gives: "hall sees player#1, *ouch\nhermit hall\n"
--- /hermit.c
void comes() { enable_commands(); }
--- /event.c
void happens(int n) { if (n == 1) raise_error("ouch"); }

=== a_later_call_fails
# So it is with each of them.
code: "/hermit"->comes(); error = catch(move_object(player, hall));
code: tell_object(player, notes + error + who(this_player()) + " " + who(environment(player)) + "\n");
gives: "hall sees player#1, player#1 sees guard, guard sees player#1, *ouch\nhermit hall\n"
--- /hermit.c
void comes() { enable_commands(); }
--- /event.c
void happens(int n) { if (n == 3) raise_error("ouch"); }
