# Files that are loaded, and calls that end uncaught.

=== fault_of_a_file_is_told_twice
# A file with a fault is told twice: by its fault, and by the error of the load.
--- /p.c "int logon( {"
--- /secure/master.c
object connect() { return clone_object("/p"); }
--- play
connect 1
end
--- written
log: "/p.c line 1: unexpected token"
log: "error: Could not load /p [connect of /secure/master, object /secure/master]"
close 1
end

=== callable_functions
# Which functions others may call.
--- /s.c
static int f() { return 3; } protected int g() { return 4; } int h() { return this_object()->f() * 10 + this_object()->g(); }
--- /secure/master.c
object connect() { return this_object(); }
int logon() { write("/s"->f() + "," + "/s"->g() + "," + "/s"->h()); return 1; }
--- play
connect 1
end
--- written
to 1: "0,0,30"
end

=== recursion_too_deep_is_caught
# A call too deep is caught; a spent budget is not, and ends the `logon`.
--- /secure/master.c
void f() { f(); }
object connect() { return this_object(); }
int logon() { write(catch(f())); return 1; }
--- play
connect 1
end
--- written
to 1: "*Too deep recursion\n"
end

=== spent_budget_is_not_caught
# A spent budget is not caught: it ends the `logon`, and the player is told.
--- /secure/master.c
void spin() { while (1) ; }
object connect() { return this_object(); }
int logon() { catch(spin()); write("x"); return 1; }
--- play
connect 1
end
--- written
log: "error: Too long evaluation. Execution aborted. [spin of /secure/master, object /secure/master]"
to 1: "Your sensitive mind notices a wrongness in the fabric of space.\n"
close 1
end

=== each_call_of_the_driver_has_a_budget
# Each call of the driver has a budget of its own: `connect` spends most of one, and so does `logon`.
--- /secure/master.c
void spin(int n) { while (n) n--; }
object connect() { spin(300000); return this_object(); }
int logon() { spin(300000); write("Hello\n"); return 1; }
--- play
connect 1
end
--- written
to 1: "Hello\n"
end

=== clone_that_ended
# A clone ends: as a key it is not there, and a name of it is 0. The next one has the next number.
--- /secure/master.c
object connect() { return this_object(); }
int logon() { object o; mapping m; o = clone_object("/t"); m = ([o: 1, 2: 3]); destruct(o); write(sizeof(m) + "," + m[0] + "," + (o == 0) + object_name(clone_object("/t"))); return 1; }
--- /t.c
int x;
--- play
connect 1
end
--- written
to 1: "1,0,1/t#2"
end

=== macros_and_groups
# Macros, and a group that is not looked at.
--- /secure/master.c
#define TWICE(x) ((x)+(x))
object connect() { return this_object(); }
#if TWICE(2) == 4
int logon() { write(TWICE(3)); return 1; }
#else
don't
#endif
--- play
connect 1
end
--- written
to 1: "6"
end

=== simul_efuns_hide_efuns
# Simul efuns hide efuns of their names, but where `efun` stands before them.
--- /p.c
void go() { write(hi() + strlen("ab") + efun::strlen("ab")); }
--- /secure/master.c
string get_simul_efun() { return "/simul"; }
object connect() { return this_object(); }
int logon() { "/p"->go(); return 1; }
--- /simul.c
string hi() { return "sim"; }
int strlen(string s) { return 99; }
--- play
connect 1
end
--- written
to 1: "sim992"
end

=== epilog_names_what_is_loaded
# What `epilog` names is loaded at the start.
--- /q.c
void create() { write("up"); }
--- /secure/master.c
object connect() { return this_object(); }
mixed *epilog(int x) { return ({"/q"}); }
void preload(string s) { load_object(s); }
--- written
log: "up"
end

=== reload_and_clones
# After a reload what lives has its old program, and the next clone has the new one.
--- /c.c
string v() { return "old"; }
--- /secure/master.c
object x;
object connect() { return this_object(); }
int logon() { x = clone_object("/c"); return 1; }
void disconnect(object o, string s) { write(x->v() + clone_object("/c")->v()); }
--- play
connect 1
--- reload /c.c
string v() { return "new"; }
--- play
gone 1
end
--- written
log: "oldnew"
end

=== reload_and_children
# So does a file that inherits the one with a new text.
--- /k.c
inherit "/p";
--- /p.c
string v() { return "p1"; }
--- /secure/master.c
object connect() { return this_object(); }
int logon() { load_object("/k"); return 1; }
void disconnect(object o, string s) { write("/k"->v() + "/p"->v()); }
--- play
connect 1
--- reload /p.c
string v() { return "p2"; }
--- play
gone 1
end
--- written
log: "p1p2"
end

=== what_a_turn_sent_before_an_error
# What a turn sent before an error stays, the texts of a `logon` come before the end of its connection, and who is gone holds none.
--- /secure/master.c
object connect() { return this_object(); }
int logon() { write("a"); write("b"); if (time()) return 1 / 0; return 1; }
void disconnect(object o, string s) { write(interactive(o) + s + "!"); }
--- play
connect 1
gone 1
tick 1
connect 2
end
--- written
to 1: "ab"
log: "0!"
to 2: "ab"
log: "error: Division by zero [logon of /secure/master, object /secure/master]"
to 2: "Your sensitive mind notices a wrongness in the fabric of space.\n"
close 2
end
