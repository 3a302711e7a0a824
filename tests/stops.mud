# A game goes on after each call, however that ended: what was done so far stays, and the next call begins anew.
--- /a.c
int v;
void sets(object o) { v = v + 5; o->fails(); }
void divides(object o) { v = v + 5; o->halves(); }
void spins(object o) { v = v + 5; o->turns(); }
void sinks(object o) { v = v + 5; sinks(o); }
int gets() { return v; }
string who(object o) { return sprintf("%O ", previous_object()) + o->who(); }
--- /b.c
void fails() { throw("x"); }
int halves() { return 1 / 0; }
void turns() { string s; s = sprintf("%9000s", ""); while (1) s[0..0]; }
string who() { return sprintf("%O %O", previous_object(), previous_object(1)); }
--- /secure/master.c
object connect() { return this_object(); }
int logon() { enable_commands(); add_action("go", "go"); add_action("told", "told"); return 1; }
int go(string s) { object b; b = load_object("/b"); @@ return 1; }
int told(string s) { write("/a"->gets() + " " + "/a"->who(load_object("/b"))); return 1; }
--- play
connect 1
line 1: go
line 1: told
end

=== after_a_value
code: write("/a"->gets());
--- written
to 1: "0"
to 1: "0 /secure/master /a /secure/master"
end

=== after_a_throw
code: "/a"->sets(b);
--- written
log: "error: Throw without catch [fails of /b, object /b]"
to 1: "Your sensitive mind notices a wrongness in the fabric of space.\n"
to 1: "5 /secure/master /a /secure/master"
end

=== after_an_error
code: "/a"->divides(b);
--- written
log: "error: Division by zero [halves of /b, object /b]"
to 1: "Your sensitive mind notices a wrongness in the fabric of space.\n"
to 1: "5 /secure/master /a /secure/master"
end

=== after_a_spent_budget
code: "/a"->spins(b);
--- written
log: "error: Too long evaluation. Execution aborted. [turns of /b, object /b]"
to 1: "Your sensitive mind notices a wrongness in the fabric of space.\n"
to 1: "5 /secure/master /a /secure/master"
end

=== after_calls_that_are_too_deep
# `go` is the first of 100: 99 times 5.
code: "/a"->sinks(b);
--- written
log: "error: Too deep recursion [sinks of /a, object /a]"
to 1: "Your sensitive mind notices a wrongness in the fabric of space.\n"
to 1: "495 /secure/master /a /secure/master"
end
