# What a player is told where no action does a line.

=== last_notify_fail_counts
# The text of the last `notify_fail` of this line, whichever action gave it; the next line begins with `What?` again.
--- /secure/master.c
object connect() { return this_object(); }
int logon() { enable_commands(); add_action("a", "x"); add_action("b", "x"); return 1; }
int a(string s) { notify_fail("Not a.\n"); return 0; }
int b(string s) { notify_fail("Not b.\n"); return 0; }
--- play
connect 1
line 1: x
line 1: y
end
--- written
to 1: "Not a.\n"
to 1: "What?\n"
end

=== notify_fail_of_a_line_that_is_done
# A text of a line that an action does is not told.
--- /secure/master.c
object connect() { return this_object(); }
int logon() { enable_commands(); add_action("a", "x"); add_action("b", "x"); return 1; }
int a(string s) { return 1; }
int b(string s) { notify_fail("Not b.\n"); return 0; }
--- play
connect 1
line 1: x
end
--- written
end

=== each_player_is_told_of_its_own_line
# Each player is told of its own line.
--- /player.c
int logon() { enable_commands(); add_action("go", "go"); return 1; }
int go(string s) { notify_fail(object_name() + "?\n"); return 0; }
--- /secure/master.c
object connect() { return clone_object("/player"); }
--- play
connect 1
connect 2
line 2: go
line 1: go
line 1: x
line 2: x
end
--- written
to 2: "/player#2?\n"
to 1: "/player#1?\n"
to 1: "What?\n"
to 2: "What?\n"
end

=== who_typed_is_told
# Who typed is told, also where `this_player()` has changed in the line.
--- /n.c
void live() { enable_commands(); }
--- /secure/master.c
object connect() { return this_object(); }
int logon() { enable_commands(); add_action("b", "x"); add_action("a", "x"); return 1; }
int a(string s) { "/n"->live(); return 0; }
int b(string s) { tell_object(this_object(), object_name(this_player()) + "\n"); return 0; }
--- play
connect 1
line 1: x
line 1: y
end
--- written
to 1: "/n\n"
      "What?\n"
to 1: "What?\n"
end

=== connection_given_away
# Who gave its connection away is told by `catch_tell`, and the next line is that of who has it.
--- /body.c
--- /player.c
int logon() { enable_commands(); add_action("leave", "leave"); return 1; }
int leave(string s) { exec(load_object("/body"), this_object()); return 0; }
void catch_tell(string s) { tell_object(load_object("/body"), "old:" + s); }
--- /secure/master.c
object connect() { return clone_object("/player"); }
--- play
connect 1
line 1: leave
line 1: leave
end
--- written
to 1: "old:What?\n"
to 1: "What?\n"
end

=== destructed_by_an_action
# Who is destructed by an action is told nothing, and no further action is tried.
--- /player.c
int logon() { enable_commands(); add_action("late", "die"); add_action("die", "die"); return 1; }
int die(string s) { destruct(this_object()); return 0; }
int late(string s) { "/secure/master"->note(); return 1; }
--- /secure/master.c
object connect() { return clone_object("/player"); }
void note() { write("late\n"); }
--- play
connect 1
line 1: die
line 1: die
end
--- written
close 1
end

=== what_the_destructed_writes_is_logged
# What it writes then goes to the log, and so does its error, of which it is told nothing.
--- /player.c
int logon() { enable_commands(); add_action("die", "die"); return 1; }
int die(string s) { destruct(this_object()); write("late\n"); return 1 / 0; }
--- /secure/master.c
object connect() { return clone_object("/player"); }
--- play
connect 1
line 1: die
end
--- written
close 1
log: "late\n"
log: "error: Division by zero [die of /player, object /player#1]"
end

=== error_in_an_action
# After an error in an action its effects stay, the log and the player are told, and no further action is tried.
--- /secure/master.c
object connect() { return this_object(); }
int n;
int logon() { enable_commands(); add_action("show", "bad"); add_action("bad", "bad"); add_action("show", "show"); return 1; }
int bad(string s) { n = 7; write("x"); return 1 / 0; }
int show(string s) { write(n); return 1; }
--- play
connect 1
line 1: bad
line 1: show
end
--- written
to 1: "x"
log: "error: Division by zero [bad of /secure/master, object /secure/master]"
to 1: "Your sensitive mind notices a wrongness in the fabric of space.\n"
to 1: "7"
end

=== budget_of_each_line
# A line has a budget of its own: after one that spent it the next one is carried out.
--- /secure/master.c
object connect() { return this_object(); }
int n;
int logon() { enable_commands(); add_action("spin", "spin"); add_action("show", "show"); return 1; }
int spin(string s) { while (1) n = 1; return 1; }
int show(string s) { write("done\n"); return 1; }
--- play
connect 1
line 1: spin
line 1: show
end
--- written
log: "error: Too long evaluation. Execution aborted. [spin of /secure/master, object /secure/master]"
to 1: "Your sensitive mind notices a wrongness in the fabric of space.\n"
to 1: "done\n"
end

=== actions_share_a_budget
# The actions of a line share it: what two of them spend is too much, and what one of them spends is not.
--- /secure/master.c
object connect() { return this_object(); }
int logon() { enable_commands(); add_action("a", "y"); add_action("a", "x"); add_action("b", "x"); return 1; }
int a(string s) { int i; while (i < 200000) i++; return 0; }
int b(string s) { int i; while (i < 200000) i++; return 0; }
--- play
connect 1
line 1: x
line 1: y
end
--- written
log: "error: Too long evaluation. Execution aborted. [a of /secure/master, object /secure/master]"
to 1: "Your sensitive mind notices a wrongness in the fabric of space.\n"
to 1: "What?\n"
end

=== inner_command_tells_before_outer
# Each command tells its own text, the inner one before the outer.
--- /secure/master.c
object connect() { return this_object(); }
int logon() { enable_commands(); add_action("go", "go"); add_action("in", "in"); add_action("deep", "deep"); return 1; }
int go(string s) { notify_fail("Not out.\n"); write(command("in") + command("none") + command("") + "\n"); return 0; }
int in(string s) { notify_fail("Not in.\n"); command("deep"); return 0; }
int deep(string s) { notify_fail("Not deep.\n"); notify_fail("Nor here.\n"); return 0; }
--- play
connect 1
line 1: go
end
--- written
to 1: "Nor here.\n"
      "Not in.\n"
      "What?\n"
      "0\n"
      "Not out.\n"
end

=== connection_closed_in_a_line
# A player whose connection LPC closes in a line hears nothing more, and its next lines do nothing.
--- /player.c
int logon() { enable_commands(); add_action("quit", "quit"); add_action("look", "look"); return 1; }
int quit(string s) { write("Bye.\n"); remove_interactive(this_object()); write("late\n"); return 0; }
int look(string s) { write(sizeof(users()) + " here\n"); return 1; }
void catch_tell(string s) { tell_object(users()[0], "catch: " + s); }
--- /secure/master.c
object connect() { return clone_object("/player"); }
void disconnect(object o, string s) { write("gone\n"); }
--- play
connect 1
connect 2
line 2: look
line 1: quit
line 1: look
line 2: look
gone 1
gone 2
end
--- written
to 2: "2 here\n"
to 1: "Bye.\n"
close 1
to 2: "catch: late\n"
      "catch: What?\n"
to 2: "1 here\n"
log: "gone\n"
end
