# Lines for which a function waits.

=== hidden_input
# The function takes the line, and a hidden input is shown again.
--- /secure/master.c
object connect() { return this_object(); }
int logon() { write("Name: "); input_to("got", 1); return 1; }
void got(string s) { write("Hi " + s + "\n"); }
--- play
connect 1
line 1: Bo
end
--- written
to 1: "Name: "
hide 1
show 1
to 1: "Hi Bo\n"
end

=== before_actions_and_once
# It takes the line before the actions do, once, with the kept arguments.
--- /secure/master.c
object connect() { return this_object(); }
int logon() { enable_commands(); add_action("bo", "Bo"); input_to("got", 0, 4, "x"); return 1; }
int bo(string s) { write("action\n"); return 1; }
void got(string s, int n, string t) { write(s + n + t + "\n"); }
--- play
connect 1
line 1: Bo
line 1: Bo
end
--- written
to 1: "Bo4x\n"
to 1: "action\n"
end

=== empty_line_and_waiting_again
# It takes an empty line too; and a function may wait for the next line again.
--- /secure/master.c
object connect() { return this_object(); }
int logon() { input_to("got"); return 1; }
void got(string s) { write("[" + s + "]\n"); input_to("last", 1); }
void last(string s) { write("{" + s + "}\n"); }
--- play
connect 1
line 1:
line 1: a b
end
--- written
to 1: "[]\n"
hide 1
show 1
to 1: "{a b}\n"
end

=== one_function_waits_at_a_time
# One function waits at a time. What takes a line is no command: it has no verb and no text of `notify_fail`, and its 0 is no failure.
--- /secure/master.c
object connect() { return this_object(); }
int logon() { write(input_to("got") + "," + input_to("got") + "\n"); return 1; }
int got(string s) { notify_fail("No.\n"); write(sprintf("%O\n", query_verb())); return 0; }
--- play
connect 1
line 1: x
end
--- written
to 1: "1,0\n"
to 1: "0\n"
end

=== object_that_waited_is_destructed
# Where its object was destructed the line is taken, and nothing is called.
--- /asker.c
void ask() { input_to("got", 1); }
void got(string s) { write("got\n"); }
--- /secure/master.c
object connect() { return this_object(); }
int logon() { enable_commands(); add_action("ask", "ask"); return 1; }
int ask(string s) { "/asker"->ask(); destruct(load_object("/asker")); return 1; }
--- play
connect 1
line 1: ask
line 1: ask
line 1: ask
end
--- written
hide 1
show 1
hide 1
end

=== player_destructed_while_it_types
# A player who is destructed while it types has lost its connection: its line does nothing.
--- /player.c
int logon() { enable_commands(); add_action("name", "name"); add_action("kill", "kill"); return 1; }
int name(string s) { write("Name: "); input_to("named", 1); return 1; }
void named(string s) { write("Hi " + s + "\n"); }
int kill(string s) { destruct(find_object(s)); return 1; }
--- /secure/master.c
object connect() { return clone_object("/player"); }
--- play
connect 1
connect 2
line 1: name
line 2: kill /player#1
line 1: Bo
line 2: look
end
--- written
to 1: "Name: "
hide 1
close 1
to 2: "What?\n"
end

=== waits_for_the_connection
# A function that waits stays with the connection: the object that has it by then is the player, and the one that asked has the function.
--- /body.c
void live() { enable_commands(); }
--- /player.c
int logon() { enable_commands(); add_action("name", "name"); add_action("take", "take"); return 1; }
int name(string s) { write("Name: "); write(input_to("named", 1, "!") + "\n"); return 1; }
void named(string s, string t) { write("Hi " + s + t + object_name() + object_name(this_player()) + object_name(this_interactive()) + "\n"); }
int take(string s) { "/body"->live(); write(exec(load_object("/body"), find_object(s)) + "" + exec(load_object("/body"), this_object()) + interactive(find_object(s)) + "\n"); return 1; }
void catch_tell(string s) { "/secure/master"->note(s); }
--- /secure/master.c
object connect() { return clone_object("/player"); }
void note(string s) { write("note " + s); }
void disconnect(object o, string s) { write(object_name(o) + s + "\n"); }
--- play
connect 1
connect 2
line 1: name
line 2: take /player#1
line 1: Bo
line 1: Bo
gone 1
end
--- written
to 1: "Name: "
hide 1
to 1: "1\n"
to 1: "100\n"
show 1
to 1: "Hi Bo!/player#1/body/body\n"
to 1: "What?\n"
log: "/body\n"
end

=== nobody_waits_without_a_connection
# Nobody waits for who has no connection, and a function that is missing is looked for last.
--- /secure/master.c
object connect() { write(input_to("none") + "\n"); return this_object(); }
int logon() { write(catch(input_to("none"))); write(input_to("got") + "" + input_to("none") + input_to("got", 1) + "\n"); return 1; }
private void got(string s) { write("[" + s + "]\n"); remove_interactive(this_object()); write(input_to("got") + "\n"); }
--- play
connect 1
line 1: a
line 1: b
end
--- written
log: "0\n"
to 1: "*No such function\n"
      "100\n"
to 1: "[a]\n"
close 1
end

=== what_waits_ends_with_its_connection
# What waits ends with its connection, and its error is that of a line.
--- /player.c
int logon() { input_to("got", 1); return 1; }
void got(string s) { if (s == "again") input_to("got"); 1 / 0; }
--- /secure/master.c
object connect() { return clone_object("/player"); }
--- play
connect 1
line 1: again
line 1: x
line 1: x
connect 2
gone 2
connect 3
line 3: é
end
--- written
hide 1
show 1
log: "error: Division by zero [got of /player, object /player#1]"
to 1: "Your sensitive mind notices a wrongness in the fabric of space.\n"
log: "error: Division by zero [got of /player, object /player#1]"
to 1: "Your sensitive mind notices a wrongness in the fabric of space.\n"
to 1: "What?\n"
hide 2
hide 3
show 3
log: "error: Division by zero [got of /player, object /player#3]"
to 3: "Your sensitive mind notices a wrongness in the fabric of space.\n"
end

=== taken_once_with_kept_arguments
# It takes the line once, with the kept arguments; and an empty line.
--- /secure/master.c
object connect() { return this_object(); }
int logon() { input_to("got", 0, 4, "x"); return 1; }
void got(string s, int n, string t) { write("[" + s + n + t + "]\n"); }
--- play
connect 1
line 1:
line 1:
line 1: Bo
end
--- written
to 1: "[4x]\n"
to 1: "What?\n"
end

=== waits_for_the_connection_of_another
# It waits for the connection, also where another object has that by then.
--- /p.c
int logon() { input_to("got"); return exec(clone_object("/q"), this_object()); }
void got(string s) { write("[" + s + "]" + object_name(this_player()) + object_name() + "\n"); }
--- /q.c
--- /secure/master.c
object connect() { return clone_object("/p"); }
--- play
connect 1
line 1: hi
end
--- written
to 1: "[hi]/q#2/p#1\n"
end
