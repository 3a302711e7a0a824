# What a load does, in which order, and for whom: first values of variables, and `create`.
# Each case also with all objects and programs out after each step.
words: replay
words: replay --swap-time 1
--- /secure/master.c
object connect() { return this_object(); }
int logon() {
  enable_commands();
  add_action("load", "load"); add_action("call", "call"); add_action("lives", "lives");
  return 1;
}
int load(string s) { write(sprintf("%O\n", load_object(s))); return 1; }
int call(string s) {
  string name, f;
  sscanf(s, "%s %s", name, f);
  write(sprintf("%O\n", call_other(name, f)));
  return 1;
}
int lives(string s) { write(find_object(s) ? "yes\n" : "no\n"); return 1; }

=== parents_come_first
# Each parent is an object of its own, whose variables get their first values and whose `create` is applied. Then, in the object, the
# variables of the parents get theirs in the order of the inherits, then its own, and the one `create` is applied that its name means.
# Nothing is loaded where a parent lives. What is inherited twice has its first values twice; a call within it goes to the later one.
--- /c.c
inherit "/p"; inherit "/q";
int z = note("z" + x + y, 3);
int sum() { return x * 100 + y * 10 + z; }
void create() { write("create of c in " + object_name() + " with " + sum() + "\n"); }
--- /d.c
inherit "/c";
--- /e.c
inherit "/d"; inherit "/d"; int w = 5;
void create() { ::create(); write("create of e with " + w + "\n"); }
--- /p.c
int x = note("x", 1); int seen;
int note(string s, int n) { seen++; write(s + " of " + object_name() + " after " + seen + "\n"); return n; }
void create() { write("create of p in " + object_name() + "\n"); }
--- /q.c
int y = two();
int two() { write("y of " + object_name() + "\n"); return 2; }
void create() { write("create of q in " + object_name() + "\n"); }
--- play
connect 1
line 1: load /c
tick 1
line 1: call /c sum
tick 2
line 1: load /d
tick 3
line 1: load /e
tick 4
line 1: lives /p
line 1: lives /q
line 1: lives /e
end
--- written
to 1: "x of /p after 1\ncreate of p in /p\ny of /q\ncreate of q in /q\n"
      "x of /c after 1\ny of /c\nz12 of /c after 2\ncreate of c in /c with 123\n/c\n"
to 1: "123\n"
to 1: "x of /d after 1\ny of /d\nz12 of /d after 2\ncreate of c in /d with 123\n/d\n"
to 1: "x of /e after 1\ny of /e\nz12 of /e after 2\nx of /e after 3\ny of /e\nz12 of /e after 4\n"
      "create of c in /e with 123\ncreate of e with 5\n/e\n"
to 1: "yes\n"
to 1: "yes\n"
to 1: "yes\n"
end

=== who_loads_has_called
# Of the object and of its parents: who loads is the caller, and who clones. The file that asks is it, and not who asked that.
--- /c.c
inherit "/p";
--- /m.c
void make() { load_object("/c"); }
void copies() { clone_object("/c"); }
--- /n.c
void make() { "/m"->copies(); }
--- /p.c
void create() { write(object_name() + sprintf(" for %O\n", previous_object())); }
--- play
connect 1
line 1: load /m
tick 1
line 1: call /m make
tick 2
line 1: load /n
tick 3
line 1: call /n make
end
--- written
to 1: "/m\n"
to 1: "/p for /m\n/c for /m\n0\n"
to 1: "/n\n"
to 1: "/c#1 for /m\n0\n"
end

=== the_driver_is_nobody
# It loads the master, and its parent first.
--- /q.c
int x = tells();
int tells() { write("x of " + object_name() + sprintf(" for %O", previous_object())); return 0; }
--- /secure/master.c
inherit "/q";
--- play
tick 1
end
--- written
log: "x of /q for 0"
log: "x of /secure/master for 0"
end

=== objects_that_end_while_they_are_loaded
# Their first values and their `create` run all the same, and see no object. What the load gives is dead, and no target; the next
# load makes it anew, and ends so too.
--- /a.c
int x = dies(); int y = 5;
int dies() { write("dies\n"); destruct(this_object()); return 1; }
void create() { write(sprintf("create of %O with %d\n", this_object(), x + y)); }
--- /b.c
void create() { destruct(this_object()); } int v() { return 8; }
--- /m.c
int loads() { return load_object("/a") == 0; }
mixed calls() { return catch("/b"->v()); }
mixed copies() { return catch(clone_object("/b")); }
--- play
connect 1
line 1: load /a
tick 1
line 1: lives /a
line 1: load /b
tick 2
line 1: load /b
line 1: load /m
tick 3
line 1: call /m loads
tick 4
line 1: call /m calls
line 1: call /m copies
tick 5
line 1: lives /b
end
--- written
to 1: "dies\ncreate of 0 with 6\n0\n"
to 1: "no\n"
to 1: "0\n"
to 1: "0\n"
to 1: "/m\n"
to 1: "dies\ncreate of 0 with 6\n1\n"
to 1: "\"*Bad target\\n\"\n"
to 1: "\"*Bad target\\n\"\n"
to 1: "no\n"
end

=== an_object_that_comes_while_its_parent_is_loaded
# The parent's `create` loads the heir: the load that waited ends with that one, and makes none.
--- /c.c
inherit "/p"; string v() { return "c"; }
--- /p.c
void create() { write("create in " + object_name() + "\n"); if (object_name() == "/p") load_object("/c"); }
--- play
connect 1
line 1: load /c
tick 1
line 1: call /c v
end
--- written
to 1: "create in /p\ncreate in /c\n/c\n"
to 1: "\"c\"\n"
end

=== parents_that_end_in_their_own_load
# Such a one has a version for the file that asked for it, however often that names it; another file's load makes it anew, and then
# of another version. Two parents of one name in two versions are two, and what both have is the later one's.
--- /d.c
inherit "/q";
--- /e.c
inherit "/d"; inherit "/q"; inherit "/q"; string all() { return v() + "/d"::v(); }
--- /q.c
void create() { write("create in " + object_name() + "\n"); if (object_name() == "/q") destruct(this_object()); }
string v() { return "q" + object_name(); }
--- play
connect 1
line 1: load /d
tick 1
line 1: lives /q
line 1: call /d v
tick 2
line 1: load /e
tick 3
line 1: lives /q
line 1: call /e v
line 1: call /e all
end
--- written
to 1: "create in /q\ncreate in /d\n/d\n"
to 1: "no\n"
to 1: "\"q/d\"\n"
to 1: "create in /q\ncreate in /e\n/e\n"
to 1: "no\n"
to 1: "\"q/e\"\n"
to 1: "\"q/eq/e\"\n"
end

=== a_file_that_fails_over_a_parent_that_ended
# The heir names a variable of its parent again. The parent, which ended in its load, is there for that fault; both are gone then.
--- /f.c
inherit "/r"; int x; int w() { return v() + x; }
--- /r.c
int x = ends(); int ends() { if (object_name() == "/r") destruct(this_object()); return 6; } int v() { return x; }
--- play
connect 1
line 1: load /f
tick 1
line 1: lives /r
line 1: load /r
tick 2
line 1: load /r
line 1: lives /f
end
--- written
log: "/f.c line 1: name used twice"
log: "error: Could not load /f [load of /secure/master, object /secure/master]"
to 1: "Your sensitive mind notices a wrongness in the fabric of space.\n"
to 1: "no\n"
to 1: "0\n"
to 1: "0\n"
to 1: "no\n"
end
