# What a check does with the rest of a script, and with devices that fail.
words: check

=== events_are_not_run
# Each kind of event is read and not run.
--- /secure/master.c
object connect() { return this_object(); }
int logon() { write("Hello\n"); return 1; }
--- play
connect 1
line 1: hi
tick 5
--- reload /x.c
int (
--- play
swap /secure/master
gone 1
end
--- written
1 files, 0 faults

=== all_goes_well
# Nothing fails.
--- /p.c "int logon( {"
--- written
/p.c line 1: unexpected token
1 files, 1 faults

=== read_fails
# The read of the input fails.
status: 5
reads fail: 1
--- /p.c "int logon( {"
--- written

=== flush_fails
# The flush is the second call of the output.
status: 6
writes fail: 2
--- /p.c "int logon( {"
--- written
/p.c line 1: unexpected token
1 files, 1 faults

=== third_write_fails
# Three bytes are taken at a time, and the third write fails.
status: 6
writes fail: 3
write takes: 3
--- /p.c "int logon( {"
--- written
bytes: "/p.c l"
