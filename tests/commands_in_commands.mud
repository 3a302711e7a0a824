# The efun `command`.

=== command_has_its_player
# Who calls it carries out the line as `this_player()`, who is as before afterwards.
--- /n.c
void live() { enable_commands(); add_action("x", "x"); }
int x(string s) { "/secure/master"->note(object_name(this_player())); return 1; }
void act() { command("x"); write(object_name(this_player()) + "\n"); }
--- /secure/master.c
object connect() { return this_object(); }
int logon() { "/n"->live(); enable_commands(); add_action("go", "go"); return 1; }
int go(string s) { "/n"->act(); return 1; }
void note(string s) { tell_object(this_object(), s + "\n"); }
--- play
connect 1
line 1: go
end
--- written
to 1: "/n\n"
      "/secure/master\n"
end

=== player_is_as_before_however_it_ends
# So it is in whichever way the command ends; and the command that ran is the innermost one again.
--- /m.c
void live() { enable_commands(); }
--- /n.c
void live() { enable_commands(); add_action("yes", "yes"); add_action("no", "no"); add_action("turn", "turn"); add_action("bad", "bad"); add_action("toss", "toss"); add_action("die", "die"); }
int yes(string s) { return 1; }
int no(string s) { notify_fail("No.\n"); return 0; }
int turn(string s) { "/m"->live(); return 1; }
int bad(string s) { return 1 / 0; }
int toss(string s) { throw("t"); return 1; }
int die(string s) { destruct(this_object()); return 1; }
void catch_tell(string s) { "/secure/master"->note(s); }
void act(string s) { command(s); }
--- /secure/master.c
object connect() { return this_object(); }
int logon() { "/n"->live(); enable_commands(); add_action("go", "go"); return 1; }
int go(string s) { write(catch("/n"->act(s)) + "," + object_name(this_player()) + "," + query_verb() + "\n"); return 1; }
void note(string s) { tell_object(this_object(), s); }
--- play
connect 1
line 1: go yes
line 1: go no
line 1: go other
line 1: go 
line 1: go turn
line 1: go bad
line 1: go toss
line 1: go die
end
--- written
to 1: "0,/secure/master,go\n"
to 1: "No.\n"
      "0,/secure/master,go\n"
to 1: "What?\n"
      "0,/secure/master,go\n"
to 1: "0,/secure/master,go\n"
to 1: "0,/secure/master,go\n"
to 1: "*Division by zero\n"
      ",/secure/master,go\n"
to 1: "t,/secure/master,go\n"
to 1: "0,/secure/master,go\n"
end

=== verb_and_notify_fail_of_the_innermost
# The verb and the text of `notify_fail` are those of the innermost command; it answers 1 where an action did the line, and 0 else.
--- /secure/master.c
object connect() { return this_object(); }
int logon() { enable_commands(); add_action("go", "go"); add_action("in", "in"); return 1; }
int go(string s) {
  notify_fail("Nowhere.\n");
  write(query_verb() + command("in 5") + query_verb() + command("out") + "\n");
  return 0;
}
int in(string s) { notify_fail("Not in.\n"); write("<" + query_verb() + s + ">"); return 1; }
--- play
connect 1
line 1: go
end
--- written
to 1: "<in5>What?\n"
      "go1go0\n"
      "Nowhere.\n"
end

=== caller_of_an_action
# Whose function calls it is the caller of the action; the driver is none.
--- /secure/master.c
object connect() { return this_object(); }
int logon() { enable_commands(); add_action("who", "who"); add_action("go", "go"); return 1; }
int who(string s) { write(previous_object() ? object_name(previous_object()) : "nobody"); return 1; }
int go(string s) { command("who"); return 1; }
--- play
connect 1
line 1: who
line 1: go
end
--- written
to 1: "nobody"
to 1: "/secure/master"
end

=== who_is_not_living_carries_out_nothing
# Who is not living carries out nothing.
--- /secure/master.c
object connect() { return this_object(); }
int logon() { write(command("x") + "\n"); return 1; }
int x(string s) { write("x"); return 1; }
--- play
connect 1
end
--- written
to 1: "0\n"
end

=== error_ends_each_command
# An error that nobody catches ends each command in which it is.
--- /secure/master.c
object connect() { return this_object(); }
int logon() { enable_commands(); add_action("go", "go"); add_action("bad", "bad"); return 1; }
int go(string s) { command("bad"); write("after\n"); return 0; }
int bad(string s) { return 1 / 0; }
--- play
connect 1
line 1: go
end
--- written
log: "error: Division by zero [bad of /secure/master, object /secure/master]"
to 1: "Your sensitive mind notices a wrongness in the fabric of space.\n"
end

=== budget_is_that_of_the_line
# What it costs is paid by the budget of the line, and that is spent for all.
--- /secure/master.c
object connect() { return this_object(); }
int n;
int logon() { enable_commands(); add_action("go", "go"); add_action("spin", "spin"); return 1; }
int go(string s) { catch(command("spin")); write("after\n"); return 1; }
int spin(string s) { while (1) n = 1; return 1; }
--- play
connect 1
line 1: go
end
--- written
log: "error: Too long evaluation. Execution aborted. [spin of /secure/master, object /secure/master]"
to 1: "Your sensitive mind notices a wrongness in the fabric of space.\n"
end

=== command_101_is_too_deep
# Commands in commands are calls in calls: the 101st is too deep.
--- /secure/master.c
object connect() { return this_object(); }
int n;
int logon() { enable_commands(); add_action("again", "again"); add_action("show", "show"); return 1; }
int again(string s) { n++; command("again"); return 1; }
int show(string s) { write(n); return 1; }
--- play
connect 1
line 1: again
line 1: show
end
--- written
log: "error: Too deep recursion [again of /secure/master, object /secure/master]"
to 1: "Your sensitive mind notices a wrongness in the fabric of space.\n"
to 1: "100"
end

=== player_dies_in_an_inner_command
# A player who dies in an inner command goes on in the outer one as nobody, and is told nothing.
--- /player.c
int logon() { enable_commands(); add_action("go", "go"); add_action("die", "die"); return 1; }
int go(string s) { int n = command("die"); write("after " + n + query_verb() + (this_player() == 0) + "\n"); return 0; }
int die(string s) { destruct(this_object()); return 0; }
--- /secure/master.c
object connect() { return clone_object("/player"); }
--- play
connect 1
line 1: go
end
--- written
close 1
log: "after 0go1\n"
end

=== command_of_who_has_no_connection
# A command of an object without a connection tells it by `catch_tell`; who asks is `this_interactive()` throughout.
--- /n.c
void live() { enable_commands(); add_action("x", "x"); }
int x(string s) { "/secure/master"->note(object_name(this_player()) + object_name(this_interactive()) + object_name(previous_object()) + "\n"); notify_fail("no x\n"); return 0; }
void catch_tell(string s) { "/secure/master"->note("/n: " + s); }
void act() { command("x 1"); command("y"); }
--- /secure/master.c
object connect() { return this_object(); }
int logon() { "/n"->live(); enable_commands(); add_action("go", "go"); return 1; }
int go(string s) { "/n"->act(); return 1; }
void note(string s) { tell_object(this_object(), s); }
--- play
connect 1
line 1: go
end
--- written
to 1: "/n/secure/master/n\n"
      "/n: no x\n"
      "/n: What?\n"
end
