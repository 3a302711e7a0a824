# The simul-efun object: when it is loaded, who sees its functions, and what becomes of those who call it.
# Each case also with all objects and programs out after each step.
words: replay
words: replay --swap-time 1
--- /secure/master.c
object connect() { return this_object(); }
string get_simul_efun() { return "/simul"; }
int logon() {
  enable_commands();
  add_action("load", "load"); add_action("call", "call"); add_action("lives", "lives"); add_action("ends", "end");
  return 1;
}
int load(string s) { write(sprintf("%O\n", load_object(s))); return 1; }
int call(string s) {
  string name, f;
  sscanf(s, "%s %s", name, f);
  write(sprintf("%O\n", call_other(name, f)));
  return 1;
}
int lives(string s) { write(find_object(s) ? "yes\n" : "no\n"); return 1; }
int ends(string s) { destruct(find_object(s)); return 1; }
--- /early.c
int go() { return strlen("ab"); }
--- /late.c
int go() { return strlen("ab"); }

=== functions_in_place_of_efuns
# A call of a simul efun is a call of its object from outside, by whom it is written. It hides an efun of its name, which `efun::` names
# still. What others may not call of it is no simul efun. A function of a file's own comes first. Where its object is gone, a call
# loads it anew; so does a load of another file, before that is compiled.
--- /hidden.c
int go() { return hidden(); }
--- /kept.c
int go() { return kept(); }
--- /mine.c
string hi() { return "mine"; } string go() { return hi(); }
--- /own.c
int go() { return own(); }
--- /p.c
string go() { return hi() + strlen("ab") + efun::strlen("ab"); }
int doubled() { return twice(4); }
string asks() { return who(); }
--- /simul.c
string hi() { return "sim"; }
int twice(int x) { return 2 * x; }
int strlen(string s) { return 99; }
string who() { return sprintf("%O", previous_object()); }
protected int kept() { return 1; }
static int own() { return 2; }
private int hidden() { return 3; }
--- play
connect 1
line 1: lives /simul
line 1: end /simul
line 1: lives /simul
tick 1
line 1: load /p
line 1: lives /simul
tick 2
line 1: call /p go
line 1: call /p doubled
line 1: call /p asks
tick 3
line 1: load /kept
line 1: load /own
line 1: load /hidden
tick 4
line 1: load /mine
line 1: call /mine go
line 1: end /simul
tick 5
line 1: call /p go
line 1: lives /simul
tick 6
--- reload /simul.c
string hi() { return "new"; } protected int strlen(string s) { return 1; }
--- play
line 1: call /p go
line 1: lives /simul
end
--- written
to 1: "yes\n"
to 1: "no\n"
to 1: "/p\n"
to 1: "yes\n"
to 1: "\"sim992\"\n"
to 1: "8\n"
to 1: "\"/p\"\n"
log: "/kept.c line 1: unknown function"
log: "error: Could not load /kept [load of /secure/master, object /secure/master]"
to 1: "Your sensitive mind notices a wrongness in the fabric of space.\n"
log: "/own.c line 1: unknown function"
log: "error: Could not load /own [load of /secure/master, object /secure/master]"
to 1: "Your sensitive mind notices a wrongness in the fabric of space.\n"
log: "/hidden.c line 1: unknown function"
log: "error: Could not load /hidden [load of /secure/master, object /secure/master]"
to 1: "Your sensitive mind notices a wrongness in the fabric of space.\n"
to 1: "/mine\n"
to 1: "\"mine\"\n"
to 1: "\"sim992\"\n"
to 1: "yes\n"
to 1: "\"new02\"\n"
to 1: "yes\n"
end

=== while_its_load_is_under_way
# No file sees its functions then: its parents, and what its `create` loads. A program that was compiled then stays so; what is
# compiled later sees them. Its own file has its own.
--- /base.c
int based() { return strlen("abc"); }
--- /heir.c
inherit "/base"; int go() { return strlen("ab") * 1000 + based(); }
--- /simul.c
inherit "/base";
int strlen(string s) { return 99; }
int own() { return strlen("abc"); }
int plain() { return efun::strlen("abc"); }
void create() { load_object("/early"); }
--- play
connect 1
line 1: lives /early
line 1: lives /base
line 1: load /late
tick 1
line 1: call /late go
line 1: call /early go
tick 2
line 1: call /simul based
line 1: call /simul own
line 1: call /simul plain
tick 3
line 1: load /heir
line 1: call /heir go
end
--- written
to 1: "yes\n"
to 1: "yes\n"
to 1: "/late\n"
to 1: "99\n"
to 1: "2\n"
to 1: "3\n"
to 1: "99\n"
to 1: "3\n"
to 1: "/heir\n"
to 1: "99003\n"
end

=== one_that_fails
# Where its begin fails it is there, as a parent's is, and the error is logged: at the start, and when the load of another file loads
# it anew. Where its file has a fault no other file can be loaded, and each call of it finds the fault; a later text mends both.
--- /simul.c
int x = 1 / 0; int strlen(string s) { return 7; }
--- play
connect 1
line 1: lives /simul
line 1: end /simul
tick 1
line 1: load /late
tick 2
line 1: call /late go
tick 3
--- reload /simul.c
int strlen(string s) { return 8 }
--- play
line 1: call /late go
tick 4
line 1: load /early
line 1: lives /simul
tick 5
--- reload /simul.c
int strlen(string s) { return 9; }
--- play
line 1: load /early
line 1: call /early go
line 1: call /late go
end
--- written
log: "error: Division by zero [__INIT of /simul, object /simul]"
to 1: "yes\n"
log: "error: Division by zero [__INIT of /simul, object /simul]"
to 1: "/late\n"
to 1: "7\n"
log: "/simul.c line 1: unexpected token"
log: "error: Could not load /simul [go of /late, object /late]"
to 1: "Your sensitive mind notices a wrongness in the fabric of space.\n"
log: "/simul.c line 1: unexpected token"
log: "error: Could not load /simul [load of /secure/master, object /secure/master]"
to 1: "Your sensitive mind notices a wrongness in the fabric of space.\n"
to 1: "no\n"
to 1: "/early\n"
to 1: "9\n"
to 1: "9\n"
end

=== one_that_ends_in_its_own_load
# It is no target for those who were compiled over it; a file that is compiled behind such a load sees none of its functions.
--- /simul.c
int strlen(string s) { return 7; }
--- play
connect 1
line 1: load /late
--- reload /simul.c
int strlen(string s) { return 8; } void create() { destruct(this_object()); }
--- play
tick 1
line 1: call /late go
line 1: lives /simul
tick 2
line 1: load /early
line 1: call /early go
end
--- written
to 1: "/late\n"
log: "error: Bad target [go of /late, object /late]"
to 1: "Your sensitive mind notices a wrongness in the fabric of space.\n"
to 1: "no\n"
to 1: "/early\n"
to 1: "2\n"
end
