# What `catch` gives for values, throws and errors, also in the midst of expressions, loops and calls from object to object.
--- /a.c
int ping(object o, int n) { return n <= 1 ? 1 : o->pong(this_object(), n - 1) + 1; }
mixed guarded(object o) { return catch(ping(o, 100)); }
string shared(object o) { mixed *a; a = ({ 1, 2 }); o->keep(a); a[0] = 5; o->change(6); return sprintf("%O", a); }
string thrown(object o) { mixed e; e = catch(o->throws()); e[0] = 9; return sprintf("%O", o->kept()); }
string through(object o) { return catch(o->calls(this_object())); }
void fails() { throw("back"); }
--- /b.c
mixed *held;
int pong(object o, int n) { return n <= 1 ? 1 : o->ping(this_object(), n - 1) + 1; }
void keep(mixed *a) { held = a; }
void change(int n) { held[1] = n; }
mixed kept() { return held; }
void throws() { held = ({ 1 }); throw(held); }
void calls(object o) { o->fails(); }
--- /secure/master.c
object connect() { return this_object(); }
int logon() { @@ return 1; }
int seven() { return 7; }
void down(int n) { if (n == 0) throw("bottom"); down(n - 1); }
int plain() { return 1 / 0; }
string three(int x, mixed y, int z) { return x + "," + y + "," + z; }
void turns() { foreach (int x : ({ 1, 2, 3 })) foreach (int y : ({ 4, 5 })) if (x == 2) throw(x + y); }
int odd(int n);
int even(int n) { return n <= 1 ? 1 : odd(n - 1) + 1; }
int odd(int n) { return n <= 1 ? 1 : even(n - 1) + 1; }
int picks(int n) { switch (n) { case 1: return 10; case 2..5: n += 100; case 7: n++; break; default: return -1; } return n; }
--- play
connect 1
end

=== what_runs_through_is_caught_as_0
code: write(seven()); write(catch(seven()));
gives: "70"

=== a_catch_in_a_catch
# The inner one has the throw; the outer one has none, or that of what follows.
code: mixed a, b; a = catch(b = catch(throw("in"))); write(a + " " + b + ";");
code: a = catch(b = catch(throw("in")), throw("out")); write(a + " " + b + ";");
code: a = catch(throw(1)); b = catch(throw("two")); write(a + " " + b);
gives: "0 in;out in;1 two"

=== errors_are_texts_and_throws_their_values
# An error has a star before it; a thrown value comes as it is.
code: write(catch(1 / 0)); write(catch(raise_error("mine"))); write(catch(throw(5)));
gives: "*Division by zero\n*mine\n5"

=== an_error_that_nobody_catches
code: plain();
--- written
log: "error: Division by zero [plain of /secure/master, object /secure/master]"
to 1: "Your sensitive mind notices a wrongness in the fabric of space.\n"
close 1
end

=== a_throw_goes_through_each_function
code: write(catch(down(10)));
gives: "bottom"

=== a_throw_that_nobody_catches
# From ten calls deep: the record names the innermost function, and not what was thrown.
code: down(10);
--- written
log: "error: Throw without catch [down of /secure/master, object /secure/master]"
to 1: "Your sensitive mind notices a wrongness in the fabric of space.\n"
close 1
end

=== a_catch_between_operands
code: write("x" + catch(1 / 0) + "y");
gives: "x*Division by zero\ny"

=== a_catch_between_arguments
# What was thrown is dropped with all that the functions had begun; the first argument stays.
code: write(three(1, catch(down(3)), 3));
gives: "1,bottom,3"

=== a_catch_between_items
code: write(sprintf("%O", ({ 1, catch(down(2)), ({ catch(throw(4)) }) })));
gives: "({ 1, \"bottom\", ({ 4 }) })"

=== a_catch_in_a_loop_over_items
code: string s; s = ""; foreach (int x : ({ 1, 2, 3 })) s += catch(x == 2 ? throw("two") : x) + ";"; write(s);
gives: "0;two;0;"

=== a_throw_out_of_two_loops
# The loops are over, and what comes behind the catch goes on.
code: string s; mixed e; s = ""; e = catch(turns()); write(e + s);
gives: "6"

=== a_catch_at_each_turn
code: mixed e; int i; string s; s = ""; for (i = 0; i < 3; i++) { e = catch(1 / i); s += e ? "e" : "-"; } write(s);
gives: "e--"

=== a_thrown_array
code: write(sprintf("%O", catch(throw(({ 1, ({ "a" }) })))));
gives: "({ 1, ({ \"a\" }) })"

=== labels_fall_through
# A label, a range of labels at its first item, in it and at its last one, one behind that, and none.
code: write(picks(1) + "," + picks(2) + "," + picks(3) + "," + picks(5) + "," + picks(7) + "," + picks(6));
gives: "10,103,104,106,8,-1"

=== functions_are_100_deep
# `logon` is the first; the record names the function from which the 101st was called.
code: write(even(99)); even(100);
--- written
to 1: "99"
log: "error: Too deep recursion [even of /secure/master, object /secure/master]"
to 1: "Your sensitive mind notices a wrongness in the fabric of space.\n"
close 1
end

=== much_deeper_is_the_same_error
# Also where it is caught. Begun with the other function of the two, so that the other one is named.
code: write(catch(even(98))); write(catch(even(4999))); odd(5000);
--- written
to 1: "0*Too deep recursion\n"
log: "error: Too deep recursion [odd of /secure/master, object /secure/master]"
to 1: "Your sensitive mind notices a wrongness in the fabric of space.\n"
close 1
end

=== depth_counts_from_object_to_object
# `logon` and 99 more.
code: write("/a"->ping(load_object("/b"), 99)); "/a"->ping(load_object("/b"), 100);
--- written
to 1: "99"
log: "error: Too deep recursion [ping of /a, object /a]"
to 1: "Your sensitive mind notices a wrongness in the fabric of space.\n"
close 1
end

=== too_deep_from_object_to_object_is_caught
code: write("/a"->guarded(load_object("/b")));
gives: "*Too deep recursion\n"

=== an_array_is_one_wherever_it_is_named
# Both objects write into it.
code: write("/a"->shared(load_object("/b")));
gives: "({ 5, 6 })"

=== a_thrown_array_is_the_same_one
code: write("/a"->thrown(load_object("/b")));
gives: "({ 9 })"

=== a_throw_goes_through_another_object
code: write("/a"->through(load_object("/b")));
gives: "back"
