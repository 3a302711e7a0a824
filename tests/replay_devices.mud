# Replays over devices that fail, or take little at a time.
--- /secure/master.c
object connect() { return this_object(); }
int logon() { write("Hello\n"); return 1; }
--- play
connect 1
line 1: x
end

=== read_fails
# The read of the input fails.
status: 5
reads fail: 1
--- written

=== a_byte_at_a_time
# A write takes one byte.
write takes: 1
--- written
to 1: "Hello\n"
to 1: "What?\n"
end

=== write_takes_nothing
# A write that takes nothing is a fault.
status: 6
write takes: 0
--- written

=== write_fails
# The first write fails.
status: 6
writes fail: 1
--- written

=== flush_fails
# The flush is the last call of the output: a replay that left it out would be done here.
status: 6
writes fail: 9
--- play
connect 1
end
--- written
to 1: "Hello\n"
end
