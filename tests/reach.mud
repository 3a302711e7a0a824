# Which actions a move leaves.

=== giver_that_sends_the_player_away
# A giver that sends the player away at once leaves no action.
--- /hall.c
--- /room.c
void init() { add_action("f", "f"); move_object(this_player(), "/hall"); } int f(string s) { return 1; }
--- /secure/master.c
object connect() { return this_object(); }
int logon() { enable_commands(); move_object(this_object(), "/room"); return 1; }
--- play
connect 1
line 1: f
end
--- written
to 1: "What?\n"
end

=== actions_of_rooms
# A room's actions end where the player leaves, and those of the next room begin.
--- /hall.c
void init() { add_action("look", "look"); }
int look(string s) { write("A hall.\n"); return 1; }
--- /room.c
void init() { add_action("look", "look"); add_action("north", "north"); }
int look(string s) { write("A room.\n"); return 1; }
int north(string s) { move_object(this_player(), "/hall"); return 1; }
--- /secure/master.c
object connect() { return this_object(); }
int logon() { enable_commands(); move_object(this_object(), "/room"); return 1; }
--- play
connect 1
line 1: look
line 1: north
line 1: look
line 1: north
end
--- written
to 1: "A room.\n"
to 1: "A hall.\n"
to 1: "What?\n"
end

=== things_carried_and_left_behind
# A thing that is carried, or lies beside the player, gives its actions; one that is left behind does not.
--- /hall.c
--- /lamp.c
void init() { add_action("rub", "rub"); }
int rub(string s) { write("It glows.\n"); return 1; }
--- /room.c
--- /secure/master.c
object connect() { return this_object(); }
int logon() {
  enable_commands(); add_action("put", "drop"); add_action("go", "go");
  move_object(this_object(), "/room"); move_object(load_object("/lamp"), this_object()); return 1;
}
int put(string s) { move_object(load_object("/lamp"), environment()); return 1; }
int go(string s) { move_object(this_object(), "/hall"); return 1; }
--- play
connect 1
line 1: rub
line 1: drop
line 1: rub
line 1: go
line 1: rub
end
--- written
to 1: "It glows.\n"
to 1: "It glows.\n"
to 1: "What?\n"
end

=== ended_giver_is_passed_over
# An action whose giver ended is passed over.
--- /lamp.c
void init() { add_action("rub", "rub"); }
int rub(string s) { write("It glows.\n"); return 1; }
--- /secure/master.c
object connect() { return this_object(); }
int logon() { enable_commands(); add_action("old", "rub"); move_object(load_object("/lamp"), this_object()); add_action("first", "rub"); return 1; }
int old(string s) { write("Nothing to rub.\n"); return 1; }
int first(string s) { destruct(load_object("/lamp")); return 0; }
--- play
connect 1
line 1: rub
end
--- written
to 1: "Nothing to rub.\n"
end

=== giver_that_goes_away
# A giver that goes away itself, before or after, leaves none either.
--- /a.c
void init() { add_action("f", "f"); move_object(this_object(), "/hall"); write("gone\n"); } int f(string s) { write("f\n"); return 1; }
--- /b.c
void init() { move_object(this_object(), "/hall"); write(add_action("g", "g") + "\n"); } int g(string s) { write("g\n"); return 1; }
--- /hall.c
--- /room.c
--- /secure/master.c
object connect() { return this_object(); }
int logon() { enable_commands(); move_object(this_object(), "/room"); move_object(load_object("/a"), "/room"); move_object(load_object("/b"), "/room"); return 1; }
--- play
connect 1
line 1: f
line 1: g
end
--- written
to 1: "gone\n"
      "0\n"
to 1: "What?\n"
to 1: "What?\n"
end

=== once_more_at_each_move
# What stays in reach gives its action once more at each move; what was out of reach gives it anew.
--- /hall.c
--- /lamp.c
void init() { add_action("rub", "rub"); }
int rub(string s) { write("Glow. "); return 0; }
--- /room.c
--- /secure/master.c
object connect() { return this_object(); }
int logon() {
  enable_commands(); add_action("take", "take"); add_action("drop", "drop"); add_action("away", "away");
  move_object(this_object(), "/room"); move_object(load_object("/lamp"), "/room"); return 1;
}
int take(string s) { move_object(load_object("/lamp"), this_object()); return 1; }
int drop(string s) { move_object(load_object("/lamp"), environment()); return 1; }
int away(string s) { move_object(load_object("/lamp"), "/hall"); return 1; }
--- play
connect 1
line 1: rub
line 1: take
line 1: rub
line 1: away
line 1: rub
line 1: drop
line 1: rub
end
--- written
to 1: "Glow. What?\n"
to 1: "Glow. Glow. What?\n"
to 1: "What?\n"
to 1: "Glow. What?\n"
end

=== giver_ends_in_an_action
# A giver that ends in its own action has answered it; one that ends or goes away in an action before it is passed over.
--- /bomb.c
void init() { add_action("pull", "pull"); }
int pull(string s) { destruct(this_object()); write("Boom" + this_object() + ". "); return s == "hard"; }
--- /hall.c
--- /rope.c
void init() { add_action("pull", "pull"); }
int pull(string s) { write("A rope.\n"); return 1; }
--- /secure/master.c
object connect() { return this_object(); }
object rope, bomb;
int logon() {
  enable_commands(); add_action("late", "pull"); rope = load_object("/rope"); move_object(rope, this_object()); add_action("away", "pull");
  bomb = clone_object("/bomb"); move_object(bomb, this_object()); bomb = clone_object("/bomb"); move_object(bomb, this_object()); return 1;
}
int late(string s) { write("Late.\n"); return 1; }
int away(string s) { write("Away. "); move_object(rope, "/hall"); return 0; }
--- play
connect 1
line 1: pull hard
line 1: pull
line 1: pull
end
--- written
to 1: "Boom0. "
to 1: "Boom0. Away. Late.\n"
to 1: "Away. Late.\n"
end

=== one_step_in_and_one_out
# Reach goes one step in and one step out.
--- /bag.c
--- /box.c
--- /coin.c
int give() { return add_action("f", "f"); } int f(string s) { return 1; }
--- /room.c
--- /secure/master.c
object connect() { return this_object(); }
int logon() {
  object coin = load_object("/coin"), bag = load_object("/bag"), box = load_object("/box");
  enable_commands(); move_object(this_object(), "/room"); move_object(bag, this_object()); move_object(box, "/room");
  write(coin->give()); move_object(coin, bag); write(coin->give()); move_object(coin, this_object()); write(coin->give());
  move_object(coin, box); write(coin->give()); move_object(coin, "/room"); write(coin->give());
  move_object(this_object(), box); write(coin->give()); move_object(coin, box); write(coin->give()); return 1;
}
--- play
connect 1
end
--- written
to 1: "0010101"
end

=== place_ends
# Where a place ends, what lay beside a player is out of reach, and what it carries is not.
--- /lamp.c
void init() { add_action("rub", "rub"); }
int rub(string s) { write("It glows.\n"); return 1; }
--- /room.c
void init() { }
void end() { destruct(this_object()); }
--- /secure/master.c
object connect() { return this_object(); }
int logon() {
  enable_commands(); add_action("end", "end"); move_object(this_object(), "/room");
  move_object(load_object("/stone"), "/room"); move_object(load_object("/lamp"), this_object()); return 1;
}
int end(string s) { "/room"->end(); return 1; }
--- /stone.c
void init() { add_action("kick", "kick"); }
int kick(string s) { write("Ow.\n"); return 1; }
--- play
connect 1
line 1: kick
line 1: end
line 1: kick
line 1: rub
end
--- written
to 1: "Ow.\n"
to 1: "What?\n"
to 1: "It glows.\n"
end
