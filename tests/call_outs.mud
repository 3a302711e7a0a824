# Call-outs. Each is run once more so that what had no entry for a second goes out after a tick: nobody can tell.
words: replay
words: replay --swap-time=1

=== order_of_making
# Those of one moment in order of making; one that is made in a tick is called in the next one.
--- /secure/master.c
object connect() { return this_object(); }
int logon() { call_out("a", 0); call_out("b", 0); return 1; }
void a() { tell_object(this_object(), "a"); call_out("c", 0); }
void b() { tell_object(this_object(), "b"); }
void c() { tell_object(this_object(), "c"); }
--- play
connect 1
tick 5
tick 5
end
--- written
to 1: "ab"
to 1: "c"
end

=== how_long_one_waits
# How long one still waits, also when it is taken back.
--- /secure/master.c
void f() { }
object connect() { return this_object(); }
int logon() { call_out("f", 10); write(find_call_out("f") + "," + remove_call_out("f") + "," + remove_call_out("f")); return 1; }
--- play
connect 1
end
--- written
to 1: "10,10,-1"
end

=== tick_at_the_same_moment
# A tick at the same moment calls nothing again.
--- /secure/master.c
object connect() { return this_object(); }
int logon() { call_out("a", 0); return 1; }
void a() { tell_object(this_object(), "a"); }
--- play
connect 1
tick 0
tick 0
end
--- written
to 1: "a"
end

=== ended_object_is_not_called
# What ended is not called.
--- /secure/master.c
object t;
object connect() { return this_object(); }
int logon() { call_out("kill", 1); t = load_object("/t"); return 1; }
void kill() { tell_object(this_object(), "kill"); destruct(t); }
--- /t.c
void create() { call_out("hit", 1); } void hit() { write("hit"); }
--- play
connect 1
tick 1
end
--- written
to 1: "kill"
end

=== others_are_called_beside_one_that_ends
# Whoever is due beside one that ends is called.
--- /c.c
void wait(int n) { call_out("hit", 1, n); }
void hit(int n) { tell_object(load_object("/secure/master"), n + ""); if (n == 2) destruct(this_object()); if (n == 3) destruct(find_object("/c#4")); }
--- /secure/master.c
object connect() { return this_object(); }
int logon() { int i; for (i = 1; i < 6; i++) clone_object("/c")->wait(i); return 1; }
--- play
connect 1
tick 1
end
--- written
to 1: "1235"
end

=== made_and_taken_back_in_a_tick
# One that is made and taken back in a tick, and one that is made in it and due at once.
--- /secure/master.c
object connect() { return this_object(); }
int logon() { call_out("a", 1); return 1; }
void a() { call_out("b", 0); call_out("c", 0); tell_object(this_object(), "a" + remove_call_out("b") + find_call_out("b") + find_call_out("c") + "\n"); }
void b() { tell_object(this_object(), "b\n"); }
void c() { tell_object(this_object(), "c\n"); }
--- play
connect 1
tick 5
tick 5
end
--- written
to 1: "a0-10\n"
to 1: "c\n"
end

=== greatest_moment
# The greatest moment is like each other one; what is due behind it never comes.
--- /secure/master.c
object connect() { return this_object(); }
int logon() { set_heart_beat(1); call_out("a", 5); return 1; }
void a() { call_out("b", 0); call_out("c", 1); call_out("d", 9223372036854775807); tell_object(this_object(), "a" + time() + "\n"); }
void b() { tell_object(this_object(), "b" + find_call_out("c") + "," + find_call_out("d") + "\n"); }
void c() { tell_object(this_object(), "c\n"); }
void d() { tell_object(this_object(), "d\n"); }
void heart_beat() { tell_object(this_object(), "beat\n"); }
void reset() { tell_object(this_object(), "reset\n"); }
int clean_up(int n) { tell_object(this_object(), "clean\n"); return 1; }
--- play
connect 1
tick 1000000000000
tick 1000000000000
tick 1000000000000
end
--- written
to 1: "a1000000000000\n"
      "beat\n"
      "reset\n"
      "clean\n"
to 1: "b1,9223372036854775807\n"
end

=== nothing_is_due
# A tick at which nothing is due writes nothing.
--- /secure/master.c
object connect() { return this_object(); }
int logon() { write("Hello\n"); return 1; }
--- play
connect 1
tick 1
end
--- written
to 1: "Hello\n"
end

=== no_more_than_100000_wait
# No more than 100000 wait.
--- /secure/master.c
void f() { }
object connect() { return this_object(); }
int logon() { int i; while (!catch(call_out("f", 9))) i++; write(i); return 1; }
--- play
connect 1
end
--- written
to 1: "100000"
end

=== due_by_their_moment
# Those that are due by their moment, and only those; with their arguments, at the moment of the tick, for nobody.
--- /secure/master.c
object connect() { return this_object(); }
int logon() { call_out("due", 9, "nine", 9); call_out("due", 4, "four", 4); call_out("due", 4, "too", 5); call_out("due", 1, "one", 1); return 1; }
void due(string s, int n) { tell_object(this_object(), s + n + "@" + time() + (this_player() ? "player" : "") + " "); }
--- play
connect 1
tick 5
tick 8
tick 20
end
--- written
to 1: "one1@5 four4@5 too5@5 "
to 1: "nine9@20 "
end

=== taken_back_in_the_same_tick
# One that is taken back in the same tick is not called; an error of one keeps no other from being called.
--- /secure/master.c
object connect() { return this_object(); }
int logon() { call_out("a", 1); call_out("b", 1); call_out("bad", 1); call_out("c", 1); return 1; }
void a() { tell_object(this_object(), "a" + remove_call_out("b") + find_call_out("b")); }
void b() { tell_object(this_object(), "b"); }
void bad() { throw(1); }
void c() { tell_object(this_object(), "c"); }
--- play
connect 1
tick 1
end
--- written
to 1: "a0-1"
log: "error: Throw without catch [bad of /secure/master, object /secure/master]"
to 1: "c"
end

=== each_has_a_budget
# Each has a budget of its own.
--- /secure/master.c
object connect() { return this_object(); }
int n;
int logon() { call_out("spin", 1); call_out("after", 1); return 1; }
void spin() { while (1) n = 1; }
void after() { tell_object(this_object(), "after\n"); }
--- play
connect 1
tick 1
end
--- written
log: "error: Too long evaluation. Execution aborted. [spin of /secure/master, object /secure/master]"
to 1: "after\n"
end

=== made_taken_back_and_due_in_a_tick
# One that is made, taken back and due in a tick is not called, and those behind it are; the earliest of a name is taken.
--- /secure/master.c
object connect() { return this_object(); }
int logon() { call_out("a", 1); call_out("d", 3, "first"); call_out("d", 2, "second"); call_out("d", 2, "third"); return 1; }
void a() { call_out("b", 0); call_out("b", 1); tell_object(this_object(), remove_call_out("b") + "," + find_call_out("b") + "," + remove_call_out("d") + "," + find_call_out("d") + "\n"); }
void b() { tell_object(this_object(), "b\n"); }
void d(string s) { tell_object(this_object(), s + "\n"); }
--- play
connect 1
tick 1
tick 1
tick 2
tick 3
end
--- written
to 1: "0,1,1,1\n"
to 1: "third\n"
      "b\n"
to 1: "first\n"
end

=== modifiers_delays_and_missing_functions
# A function is called whatever its modifiers are; negative delays, missing functions and those who ended make none.
--- /o.c
string go() { destruct(this_object()); return call_out("none", -1) + "," + find_call_out("f") + remove_call_out("f"); }
--- /secure/master.c
object connect() { return this_object(); }
int logon() { write(catch(call_out("f", -1)) + catch(call_out("none", -1)) + catch(call_out("none", 1)) + "/o"->go() + call_out("f", 1, this_object(), ({ 1 })) + "\n"); return 1; }
private void f(object o, int *a) { tell_object(o, a[0] + object_name(o) + this_player() + previous_object() + this_interactive() + "\n"); }
--- play
connect 1
tick 1
end
--- written
to 1: "*Bad argument 2 to call_out\n"
      "*Bad argument 2 to call_out\n"
      "*No such function\n"
      "0,-1-10\n"
to 1: "1/secure/master000\n"
end
