# Files that have new texts.
# Each case also with all objects and programs out after each step.
words: replay
words: replay --swap-time 1
--- /secure/master.c
object connect() { return this_object(); }
int logon() {
  enable_commands();
  add_action("load", "load"); add_action("call", "call"); add_action("lives", "lives");
  return 1;
}
int load(string s) { write(sprintf("%O\n", load_object(s))); return 1; }
int call(string s) {
  string name, f;
  sscanf(s, "%s %s", name, f);
  write(sprintf("%O\n", call_other(name, f)));
  return 1;
}
int lives(string s) { write(find_object(s) ? "yes\n" : "no\n"); return 1; }

=== old_beside_new
# A clone goes on with the version that it has, and its variables, beside clones of the new one. The clone of an object that has a new
# text lives on too, and that object is loaded anew.
--- /c.c
int n; int count() { n++; return n; } string v() { count(); return "old"; }
--- /m.c
object x;
void make() { x = clone_object("/c"); }
string go() { return x->v() + clone_object("/c")->v(); }
--- play
connect 1
line 1: load /m
line 1: call /m make
tick 1
line 1: call /c#1 count
tick 2
--- reload /c.c
string v() { return "new"; }
--- play
line 1: lives /c
line 1: lives /c#1
tick 3
line 1: call /m go
tick 4
line 1: call /c#1 v
line 1: call /c#2 v
line 1: call /c#1 count
line 1: call /c#2 count
tick 5
--- reload /m.c
int v() { return 5; }
--- play
line 1: lives /m
line 1: load /m
line 1: call /m v
end
--- written
to 1: "/m\n"
to 1: "0\n"
to 1: "1\n"
to 1: "no\n"
to 1: "yes\n"
to 1: "\"oldnew\"\n"
to 1: "\"old\"\n"
to 1: "\"new\"\n"
to 1: "4\n"
to 1: "0\n"
to 1: "no\n"
to 1: "/m\n"
to 1: "5\n"
end

=== children_of_old_parents
# A child keeps the version of its parent with which it was compiled; its next load takes that of the parent that lives then, which is
# loaded where none does.
--- /k.c
inherit "/p";
--- /l.c
inherit "/p"; string v() { return "l" + ::v(); }
--- /m.c
string go() { return "/k"->v() + "/p"->v(); }
string all() { return go() + "/l"->v(); }
--- /p.c
string v() { return "p1"; }
--- play
connect 1
line 1: load /k
line 1: load /m
tick 1
line 1: call /m go
tick 2
--- reload /p.c
string v() { return "p2"; }
--- play
line 1: lives /p
line 1: lives /k
tick 3
line 1: call /m go
tick 4
--- reload /k.c
inherit "/p";
--- play
line 1: call /m go
tick 5
--- reload /p.c
string v() { return "p3"; }
--- play
line 1: lives /p
line 1: load /l
tick 6
line 1: lives /p
line 1: call /m all
end
--- written
to 1: "/k\n"
to 1: "/m\n"
to 1: "\"p1p1\"\n"
to 1: "no\n"
to 1: "yes\n"
to 1: "\"p1p2\"\n"
to 1: "\"p2p2\"\n"
to 1: "no\n"
to 1: "/l\n"
to 1: "yes\n"
to 1: "\"p2p3lp3\"\n"
end

=== faults_that_come_and_go
# A new text with a fault: the blueprint is gone, each call finds the fault anew, and a later text mends it. A file beside it whose
# name does not end in `.c` changes nothing.
--- /c.c
int v() { return 1; }
--- /m.c
int go() { return "/c"->v(); }
mixed careful() { return catch(go()); }
--- play
connect 1
line 1: load /m
line 1: call /m go
tick 1
--- reload /c.c
int v() { return 2 }
--- play
line 1: call /m go
tick 2
line 1: call /m careful
line 1: lives /c
tick 3
--- reload /c.c
int v() { return 3; }
--- play
line 1: call /m go
tick 4
--- reload /c.txt
int v() { return 4; }
--- play
line 1: lives /c
line 1: call /m go
end
--- written
to 1: "/m\n"
to 1: "1\n"
log: "/c.c line 1: unexpected token"
log: "error: Could not load /c [go of /m, object /m]"
to 1: "Your sensitive mind notices a wrongness in the fabric of space.\n"
log: "/c.c line 1: unexpected token"
to 1: "\"*Could not load /c\\n\"\n"
to 1: "no\n"
to 1: "3\n"
to 1: "yes\n"
to 1: "3\n"
end

=== what_went_out
# Three objects with a program each: the master, the heir and its parent. All of them are out once 2 seconds passed in which no function
# of theirs was entered.
words: replay --swap-time 2 --report
--- /k.c
inherit "/p";
--- /p.c
string v() { return "p1"; }
--- play
connect 1
line 1: load /k
tick 1
tick 2
end
--- written
to 1: "/k\n"
end
report 3 3 3 3

=== what_did_not_go_out
# One second is too short.
words: replay --swap-time 2 --report
--- /k.c
inherit "/p";
--- /p.c
string v() { return "p1"; }
--- play
connect 1
line 1: load /k
tick 1
end
--- written
to 1: "/k\n"
end
report 3 0 3 0

=== what_came_back
# A call of the heir brings it back with its program and its parent's, in whose text the function stands; the parent itself stays out.
words: replay --swap-time 2 --report
--- /k.c
inherit "/p";
--- /p.c
string v() { return "p1"; }
--- play
connect 1
line 1: load /k
tick 2
line 1: call /k v
tick 3
end
--- written
to 1: "/k\n"
to 1: "\"p1\"\n"
end
report 3 1 3 0

=== a_new_text_shows_in_a_file
# A reload of what nobody loaded tells nobody anything, and the new text is there.
words: replay
--- /secure/master.c
object connect() { return this_object(); }
int valid_read(string path) { return 1; }
int logon() { write("" + read_file("/a.c")); return 1; }
--- play
connect 1
--- reload /a.c "int x;"
--- play
gone 1
connect 2
end
--- written
to 1: "0"
to 2: "int x;"
end
