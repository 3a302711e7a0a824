# An array that two objects have, of which each tick changes an item through one and shows it through the other: objects and programs
# go out to the swap file, and nobody in the game can tell, at any swap time.
words: replay
words: replay --swap-time 0
words: replay --swap-time 1
words: replay --swap-time 900
--- /a.c
int *v; void take(int *x) { v = x; } void show() { write(v[0] + "\n"); }
--- /b.c
int *v; void make() { v = ({1}); "/a"->take(v); } void put(int n) { v[0] = n; }
--- /secure/master.c
object connect() { return this_object(); }
int logon() { "/b"->make(); call_out("go", 1, 7); call_out("go", 2, 8); return 1; }
void go(int n) { "/b"->put(n); "/a"->show(); }

=== nothing_is_named
# The array is one, and nothing goes out by name.
--- play
connect 1
tick 1
end
--- written
log: "7\n"
end

=== one_is_named
# One of the two that have the array goes out before the tick.
--- play
connect 1
swap /a
tick 1
end
--- written
log: "7\n"
end

=== one_is_named_twice
# It goes out again before the second tick.
--- play
connect 1
swap /a
tick 1
swap /a
tick 2
end
--- written
log: "7\n"
log: "8\n"
end

=== all_are_named
# All go out, the driver's master too.
--- play
connect 1
swap /b
swap /a
swap /secure/master
tick 1
swap /a
swap /b
tick 2
end
--- written
log: "7\n"
log: "8\n"
end

=== report_of_swapped_and_wanted
# What was named comes in where it is wanted: none of the three is out.
words: replay --report
--- play
connect 1
swap /a
tick 1
end
--- written
log: "7\n"
end
report 3 0 3 0

=== report_of_swapped_again
# Named once more at the end, it is out with its version.
words: replay --report
--- play
connect 1
swap /a
tick 1
swap /a
end
--- written
log: "7\n"
end
report 3 1 3 1
