# Calls of other objects: who called, which arguments come, and objects that end meanwhile.
--- /a.c
string begin(object b, object c) { return b->pass(c); }
string own(object b, object c) { return this_object()->begin(b, c); }
void begins(object b, object c) { write(begin(b, c)); }
void owns(object b, object c) { write(own(b, c)); }
int count(int x, int y) { return x * 10 + y; }
void counts(int x, int y) { write(count(x, y)); }
int less() { return count(); }
int more() { return count(1, 2, 3); }
int other(object o) { return o->sum(1, 2, 3) * 1000 + o->sum(1) * 10 + o->sum(); }
void later(string f, mixed x, mixed y) { call_out(f, 0, x, y); }
void soon() { call_out("counts", 0); call_out("counts", 0, 1); call_out("counts", 0, 1, 2, 3); }
mixed kills(object o) { destruct(o); return o == 0; }
mixed calls(object o) { destruct(o); return catch(o->dies()); }
string asks(object o) { int n; n = o->dies(); return n + " " + (o == 0); }
int named() { return "/b"->one(); }
mixed wrong() { return 5->one(); }
--- /b.c
int v;
string inner(object c) { return c->who(); }
string pass(object c) { return inner(c); }
void passes(object c) { write(pass(c)); }
int sum(int x, int y) { return x + y; }
void later(string f, mixed x) { call_out(f, 0, x); }
int one() { return 1; }
int dies() { v = 7; destruct(this_object()); v++; return v * 10 + one(); }
void dying() { write(dies()); }
int zero() { destruct(this_object()); return this_object() == 0; }
--- /c.c
string who() { return sprintf("%O %O %O %O", previous_object(), previous_object(1), previous_object(2), this_object()); }
void tells() { write(who()); }
void later(string f) { call_out(f, 0); }
--- /secure/master.c
object connect() { return this_object(); }
int logon() { @@ return 1; }
--- play
connect 1
end

=== callers_stand_latest_first
# The driver is nobody; a call within an object has no caller of its own, and an object that calls itself by its name is one.
code: object b, c; b = load_object("/b"); c = load_object("/c");
code: c->later("tells"); b->later("passes", c); "/a"->later("begins", b, c); "/a"->later("owns", b, c);
--- play
connect 1
tick 0
end
--- written
log: "0 0 0 /c"
log: "/b 0 0 /c"
log: "/b /a 0 /c"
log: "/b /a /a /c"
end

=== the_object_of_a_logon_is_a_caller
# `logon` runs in the master, which makes the call.
code: write("/c"->who()); write("\n" + "/b"->pass(load_object("/c")));
gives: "/secure/master 0 0 /c\n/b /secure/master 0 /c"

=== missing_arguments_are_0_and_surplus_ones_are_dropped
# From another object: none, one, three of two; within the object: none, three of two; and three calls of a sum of two.
code: object a; a = load_object("/a");
code: write(a->count() + "," + a->count(1) + "," + a->count(1, 2, 3) + "," + a->less() + "," + a->more());
code: write("," + a->other(load_object("/b")));
gives: "0,10,12,0,12,3010"

=== arguments_of_the_drivers_calls
# A call-out hands on none, one and three arguments to a function of two.
code: "/a"->soon();
--- play
connect 1
tick 0
end
--- written
log: "0"
log: "10"
log: "12"
end

=== a_destructed_object_reads_as_0_in_the_argument_that_named_it
code: write("/a"->kills(load_object("/b")));
gives: "1"

=== a_destructed_object_is_no_target
code: write("/a"->calls(load_object("/b")));
gives: "*Bad target\n"

=== an_object_that_ends_in_its_own_call_goes_on
# It sees and changes its variables and calls its functions; who called finds it gone.
code: write("/a"->asks(load_object("/b")));
gives: "81 1"

=== an_object_that_ends_in_a_call_of_the_driver_goes_on
code: "/b"->later("dying", 0);
--- play
connect 1
tick 0
end
--- written
log: "81"
end

=== this_object_is_0_once_it_ended
code: write("/b"->zero());
gives: "1"

=== a_target_by_its_name
code: write("/a"->named());
gives: "1"

=== a_number_is_no_target
# Nobody catches it: the place is told, and the `logon` counts as 0.
code: "/a"->wrong();
--- written
log: "error: Bad target [wrong of /a, object /a]"
to 1: "Your sensitive mind notices a wrongness in the fabric of space.\n"
close 1
end
