# Clones and their numbers, and objects that are named by texts.
# Each case also with all objects and programs out after each step.
words: replay
words: replay --swap-time 1
--- /secure/master.c
object connect() { return this_object(); }
int logon() {
  enable_commands();
  add_action("load", "load"); add_action("call", "call"); add_action("lives", "lives");
  return 1;
}
int load(string s) { write(sprintf("%O\n", load_object(s))); return 1; }
int call(string s) {
  string name, f;
  sscanf(s, "%s %s", name, f);
  write(sprintf("%O\n", call_other(name, f)));
  return 1;
}
int lives(string s) { write(find_object(s) ? "yes\n" : "no\n"); return 1; }

=== numbers_of_clones
# One counter for all clones, of which no number comes twice; a clone of a clone is one of its blueprint, and where that is gone the
# file is loaded anew. A refusal takes no number. A file may forbid its clones, and not those of its heirs. A clone goes on with the
# program that it has.
--- /m.c
object a;
string make() { a = clone_object("/p"); return object_name(a); }
string heir() { return object_name(clone_object("q.c")); }
string again() { return object_name(clone_object(a)); }
void ends() { destruct(a); }
void root() { destruct(find_object("/p")); }
object none() { return clone_object("/n"); }
string late() { return object_name(clone_object("/o")); }
mixed named() { return catch(clone_object("/p#1")); }
mixed dead() { return catch(clone_object(a)); }
int all() { return a->v() * 10 + "/p"->v(); }
--- /n.c
#pragma no_clone
int v() { return 2; }
--- /o.c
inherit "/n";
--- /p.c
int v() { return 1; }
--- /q.c
inherit "/p";
--- play
connect 1
line 1: load /m
tick 1
line 1: call /m make
tick 2
line 1: lives /p
line 1: call /m heir
tick 3
line 1: call /m again
tick 4
line 1: call /m ends
line 1: lives /p#1
line 1: call /m dead
tick 5
line 1: call /m none
line 1: lives /n
tick 6
line 1: call /m late
tick 7
line 1: call /m named
line 1: call /m make
tick 8
line 1: call /m root
line 1: lives /p
tick 9
--- reload /p.c
int v() { return 3; }
--- play
line 1: call /m again
tick 10
line 1: lives /p
line 1: call /p#6 v
line 1: call /m all
tick 11
line 1: call /m make
end
--- written
to 1: "/m\n"
to 1: "\"/p#1\"\n"
to 1: "yes\n"
to 1: "\"/q#2\"\n"
to 1: "\"/p#3\"\n"
to 1: "0\n"
to 1: "no\n"
to 1: "\"*Bad argument 1 to clone_object\\n\"\n"
log: "error: Not clonable [none of /m, object /m]"
to 1: "Your sensitive mind notices a wrongness in the fabric of space.\n"
to 1: "yes\n"
to 1: "\"/o#4\"\n"
to 1: "\"*Bad target\\n\"\n"
to 1: "\"/p#5\"\n"
to 1: "0\n"
to 1: "no\n"
to 1: "\"/p#6\"\n"
to 1: "yes\n"
to 1: "3\n"
to 1: "13\n"
to 1: "\"/p#7\"\n"
end

=== names_as_texts
# A name gets its slash and loses its `.c`; what does not live is loaded, but not where it has the name of a clone. A function that is
# nowhere, or static, is 0. Who calls by a name is a caller. The empty text names the file `/.c`.
--- /m.c
string five() { return "" + "/p"->v() + "p"->v() + "/p.c"->v() + "p.c"->v() + load_object("p")->v(); }
string who() { return "/p"->who(); }
string other() { return call_other("q", "who"); }
int none() { return "/p"->nothing() + "/p"->own(); }
mixed lost() { return catch("/none"->v()); }
mixed clone() { return catch("/p#1"->v()); }
mixed loaded() { return catch(load_object("/p#1")); }
string made() { clone_object("/p"); return "" + "/p#1"->v() + "p#1"->v() + load_object("/p#1")->v(); }
int same() { return load_object("/p") == find_object("p.c"); }
mixed blank() { return catch(load_object("")); }
--- /p.c
int n; int v() { n++; return n; } string who() { return object_name() + sprintf(" %O", previous_object()); }
static int own() { return 4; }
--- /q.c
string who() { return "q"; }
--- play
connect 1
line 1: load /m
tick 1
line 1: call /m clone
line 1: call /m loaded
line 1: lives /p
tick 2
line 1: call /m five
tick 3
line 1: lives /p
line 1: call /m who
line 1: call /m other
tick 4
line 1: call /m none
line 1: call /m lost
tick 5
line 1: call /m made
tick 6
line 1: call /m clone
line 1: call /m same
line 1: call /m blank
end
--- written
to 1: "/m\n"
to 1: "\"*Bad target\\n\"\n"
to 1: "\"*Bad target\\n\"\n"
to 1: "no\n"
to 1: "\"12345\"\n"
to 1: "yes\n"
to 1: "\"/p /m\"\n"
to 1: "\"q\"\n"
to 1: "0\n"
log: "/none.c line 0: no such file"
to 1: "\"*Could not load /none\\n\"\n"
to 1: "\"123\"\n"
to 1: "0\n"
to 1: "1\n"
log: "/.c line 0: no such file"
to 1: "\"*Could not load /\\n\"\n"
end
