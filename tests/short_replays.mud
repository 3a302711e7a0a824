# Short replays with their whole transcripts.

=== hello_and_what
# The text of a `logon`, and what a line is answered that no action takes.
--- /secure/master.c
object connect() { return this_object(); }
int logon() { write("Hello\n"); return 1; }
--- play
connect 1
line 1: x
end
--- written
to 1: "Hello\n"
to 1: "What?\n"
end

=== no_events
# A run without events writes its end alone.
--- /secure/master.c
object connect() { return this_object(); }
int logon() { write("Hello\n"); return 1; }
--- written
end

=== logon_that_answers_0
# A `logon` that answers 0 closes its connection.
--- /secure/master.c
object connect() { return this_object(); }
int logon() { write("No\n"); return 0; }
--- play
connect 1
end
--- written
to 1: "No\n"
close 1
end

=== second_connection_of_one_object
# Two connections: the master has one already.
--- /secure/master.c
object connect() { return this_object(); }
int logon() { write("Hello\n"); return 1; }
--- play
connect 1
connect 2
end
--- written
to 1: "Hello\n"
close 2
end

=== master_without_connect
# A master without `connect` takes nobody.
--- /secure/master.c "int logon() { return 1; }"
--- play
connect 7
line 7:
end
--- written
close 7
end

=== values_that_are_written
# Each kind of value written; a text that a player is sent is joined with its neighbours.
--- /secure/master.c "object connect() { return this_object(); } int logon() { write(1); write(\"\"); write(\"a\\\"\\\\\"); write(this_object()); write(9223372036854775807); return \"x\"; }"
--- play
connect 1
end
--- written
to 1: "1a\"\\/secure/master9223372036854775807"
end

=== statements_behind_a_return
# What stands behind a `return` is not run; `write` in `connect` is a log record.
--- /secure/master.c "mixed connect() { write(\"in\"); write(this_object()); return this_object(); write(1); }\n"
                     "void logon() { return 1; write(\"no\"); return 0; }"
--- play
connect 3
line 3:
line 3: hi
end
--- written
log: "in"
log: "/secure/master"
to 3: "What?\n"
end

=== connect_that_answers_no_object
# An answer that is no object, and a `logon` without a `return`.
--- /secure/master.c "int connect() { return 5; }"
--- play
connect 1
end
--- written
close 1
end

=== logon_without_a_return
# A `logon` without a `return` answers 0; the second connection is closed too.
--- /secure/master.c "object connect() { return this_object(); } int logon() { }"
--- play
connect 1
line 1: x
connect 2
end
--- written
close 1
close 2
end

=== master_with_a_fault_of_grammar
# No master, and nothing written.
status: 3
--- /secure/master.c "int logon( {"
--- play
connect 1
end
--- written

=== master_with_a_fault_of_types
# So it is with a fault of the types.
status: 3
--- /secure/master.c "int logon() { } int logon() { }"
--- written

=== empty_master
# An empty master takes nobody.
--- /secure/master.c
--- play
connect 1
end
--- written
close 1
end

=== swap_times
# The least and the greatest swap time.
words: replay --swap-time 0
words: replay --swap-time=1000000000
--- /secure/master.c
object connect() { return this_object(); }
int logon() { write("Hello\n"); return 1; }
--- play
connect 1
end
--- written
to 1: "Hello\n"
end

=== no_master
# A script without a master.
status: 3
--- told
/secure/master.c line 0: no such file
--- written

=== fault_of_the_master_is_told
# A master with a fault, which is told with its line.
status: 3
--- /secure/master.c "\n"
                     "int logon( {"
--- told
/secure/master.c line 2: unexpected token
--- written
