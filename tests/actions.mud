# Which actions a line tries, and with what.

=== latest_action_first
# The latest action comes first, and an answer 0 goes on to the next one.
--- /secure/master.c
object connect() { return this_object(); }
int logon() { enable_commands();
  add_action("one", "say"); add_action("two", "say"); return 1; }
int one(string s) { write("1"); return 1; }
int two(string s) { write("2"); return 0; }
--- play
connect 1
line 1: say hi
end
--- written
to 1: "21"
end

=== latest_action_first_for_a_front
# So it is with actions for a front of a verb.
--- /secure/master.c
object connect() { return this_object(); }
int logon() { enable_commands();
  add_action("one", "s", 1); add_action("two", "s", 1); return 1; }
int one(string s) { write("1"); return 1; }
int two(string s) { write("2"); return 0; }
--- play
connect 1
line 1: say hi
end
--- written
to 1: "21"
end

=== query_verb_is_what_was_typed
# `query_verb()` is what was typed.
--- /secure/master.c
object connect() { return this_object(); }
int logon() { enable_commands(); add_action("one", "s", 1); return 1; }
int one(string s) { write(query_verb()); return 1; }
--- play
connect 1
line 1: sa
end
--- written
to 1: "sa"
end

=== verb_and_argument
# A verb goes up to the first space; what follows that space is the argument, and 0 where none stands.
--- /secure/master.c
object connect() { return this_object(); }
int logon() { enable_commands(); add_action("talk", "say"); return 1; }
int talk(string s) { write(sprintf("%O\n", s)); return 1; }
--- play
connect 1
line 1: say
line 1: say 
line 1: say  hi you
line 1: says hi
line 1:  say
end
--- written
to 1: "0\n"
to 1: "\"\"\n"
to 1: "\" hi you\"\n"
to 1: "What?\n"
to 1: "What?\n"
end

=== verb_for_a_front
# A verb for a front is called for each word that it begins, and for no other.
--- /secure/master.c
object connect() { return this_object(); }
int logon() { enable_commands(); add_action("walk", "go", 1); return 1; }
int walk(string s) { write(query_verb() + "," + s + "\n"); return 1; }
--- play
connect 1
line 1: go up
line 1: goto up
line 1: g up
line 1: Go up
end
--- written
to 1: "go,up\n"
to 1: "goto,up\n"
to 1: "What?\n"
to 1: "What?\n"
end

=== flag_is_1
# The flag is 1 and nothing else.
--- /secure/master.c
object connect() { return this_object(); }
int logon() { enable_commands(); add_action("two", "s", 2); add_action("zero", "z", 0); return 1; }
int two(string s) { write("2"); return 1; }
int zero(string s) { write("0"); return 1; }
--- play
connect 1
line 1: say
line 1: s
line 1: zed
line 1: z
end
--- written
to 1: "What?\n"
to 1: "2"
to 1: "What?\n"
to 1: "0"
end

=== empty_verb
# A verb may be empty: with the flag it begins each word, without it is that of a line that begins with a space.
--- /secure/master.c
object connect() { return this_object(); }
int logon() { enable_commands(); add_action("all", "", 1); add_action("none", ""); return 1; }
int all(string s) { write("all:" + query_verb() + "\n"); return 1; }
int none(string s) { write("none:" + s + "\n"); return 1; }
--- play
connect 1
line 1: ab c
line 1:  c
line 1:
end
--- written
to 1: "all:ab\n"
to 1: "none:c\n"
end

=== code_points
# Verbs and arguments are texts of code points.
--- /secure/master.c
object connect() { return this_object(); }
int logon() { enable_commands(); add_action("show", "ä"); return 1; }
int show(string s) { write(query_verb() + s + strlen(s)); return 1; }
--- play
connect 1
line 1: ä öü
end
--- written
to 1: "äöü2"
end

=== action_with_modifiers
# An action is called whatever its modifiers are.
--- /secure/master.c
object connect() { return this_object(); }
int logon() { enable_commands(); add_action("a", "a"); add_action("b", "b"); return 1; }
private int a(string s) { write("private\n"); return 1; }
static int b(string s) { write("static\n"); return 1; }
--- play
connect 1
line 1: a
line 1: b
end
--- written
to 1: "private\n"
to 1: "static\n"
end

=== action_added_in_a_line
# An action that is added while a line is carried out waits for the next line.
--- /secure/master.c
object connect() { return this_object(); }
int logon() { enable_commands(); add_action("b", "x"); add_action("a", "x"); return 1; }
int a(string s) { write("a"); add_action("c", "x"); return 0; }
int b(string s) { write("b"); return 1; }
int c(string s) { write("c"); return 1; }
--- play
connect 1
line 1: x
line 1: x
end
--- written
to 1: "ab"
to 1: "c"
end

=== answers_that_are_0
# An empty text and an empty array are no 0, and what is answered as a destructed object is.
--- /c.c
--- /secure/master.c
object connect() { return this_object(); }
int logon() { enable_commands(); add_action("word", "w"); add_action("list", "l"); add_action("none", "n"); add_action("dead", "d"); return 1; }
string word(string s) { return ""; }
mixed list(string s) { return ({ }); }
void none(string s) { }
object dead(string s) { object o = clone_object("/c"); destruct(o); return o; }
--- play
connect 1
line 1: w
line 1: l
line 1: n
line 1: d
end
--- written
to 1: "What?\n"
to 1: "What?\n"
end

=== empty_line_and_who_is_not_living
# An empty line does nothing, and who is not living has no actions.
--- /secure/master.c
object connect() { return this_object(); }
int logon() { write(add_action("a", "a") + "\n"); return 1; }
int a(string s) { write("a\n"); return 1; }
--- play
connect 1
line 1:
line 1: a
end
--- written
to 1: "0\n"
to 1: "What?\n"
end
