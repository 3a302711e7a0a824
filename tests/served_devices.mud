# Served games whose wire, output or swap file fails, or that end when so many polls were made.
# Where a poll fails the record has no `end`; what was heard before is in it, and was sent.
words: serve --lib lib --port 4000 --control 4001 --record record
--- /secure/master.c
object connect() { return this_object(); }
int logon() { write("Hello\n"); return 1; }
--- wire
accept 1
piece 1 "lo"
piece 1 "\xff\xfd\x01ok"
piece 1 "\r\n"
piece 0 "stop\n"
--- taken
to 1: "Hello\r\nWhat?\r\n"
--- play
connect 1
line 1: look
end

=== poll_1_fails
# Nothing was heard or sent: the record has the head, the files and the start.
polls fail: 1
status: 9
--- taken
--- play

=== poll_2_fails
polls fail: 2
status: 9
--- taken
to 1: "Hello\r\n"
--- play
connect 1

=== poll_3_fails
polls fail: 3
status: 9
--- taken
to 1: "Hello\r\n"
--- play
connect 1

=== poll_4_fails
polls fail: 4
status: 9
--- taken
to 1: "Hello\r\n"
--- play
connect 1

=== poll_5_fails
# The line had its turn; what fails is the poll that would have given `stop`.
polls fail: 5
status: 9
--- play
connect 1
line 1: look

=== poll_6_is_not_made
# Behind `stop` there is no poll.
polls fail: 6

=== poll_2_fails_while_little_is_taken
# What was taken is a front of what would have been.
polls fail: 2
takes 1: 1
status: 9
--- taken
to 1: "He"
--- play
connect 1

=== poll_fails_without_a_record
# The log has what was logged up to there.
words: serve --lib lib --port 4000 --control 4001
polls fail: 3
status: 9
--- /secure/master.c
void create() { write("up"); }
object connect() { write("one"); return this_object(); }
void disconnect() { write("off"); }
int logon() { return 1; }
--- wire
accept 1
lost 1
line 0: stop
--- taken
--- written
log: "up"
log: "one"
log: "off"

=== polls_are_spent
# Four polls, and the fifth would have given `stop`.
words: serve --lib lib --port 4000 --control 4001 --record record --turns 4
status: 10

=== as_many_polls_as_it_takes
# The last poll that may be made gives `stop`.
words: serve --lib lib --port 4000 --control 4001 --record record --turns 5

=== polls_without_a_happening
# Nothing comes, three times.
words: serve --lib lib --port 4000 --control 4001 --record record --turns 3
status: 10
--- wire
--- taken
--- play
end

=== no_poll
# None is made, so none fails.
words: serve --lib lib --port 4000 --control 4001 --record record --turns 0
polls fail: 1
status: 10
--- taken
--- play
end

=== a_byte_at_a_time
# A write takes one byte; the record is the same.
write takes: 1

=== a_write_takes_nothing
# The output fails before anything is polled.
write takes: 0
status: 6
--- taken
--- written

=== the_first_write_fails
writes fail: 1
status: 6
--- taken
--- written

=== a_write_of_the_opening_fails
# Each write takes one byte, so the tenth fails behind nine.
write takes: 1
writes fail: 10
status: 6
--- taken
--- written
bytes: "mudscript"

=== a_write_of_an_event_fails
# The head, the file and the start have 135 bytes, `connect 1` and its newline 10: so the 150th write fails in the line's item, whose turn was over, and
# what that turn gave was not sent.
write takes: 1
writes fail: 150
cut: 149
status: 6
--- taken
to 1: "Hello\r\n"

=== a_write_of_the_first_event_fails
write takes: 1
writes fail: 140
cut: 139
status: 6
--- taken

=== a_write_of_the_end_fails
# All was sent, and the last newline is missing.
write takes: 1
writes fail: 163
cut: 162
status: 6

=== the_last_flush_fails
# All was written, and not passed on.
write takes: 1
writes fail: 164
status: 6

=== no_master
# Without a master nothing is polled or written; the faults are told.
status: 3
--- /secure/master.c
object connect( { return this_object(); }
--- taken
--- written
--- told
/secure/master.c line 1: unexpected token

=== include_that_is_missing
status: 3
--- /secure/master.c
#include "/no.h"
--- taken
--- written
--- told
/secure/master.c line 1: no such include

=== read_of_the_swap_file_fails
# What is idle for a second goes out at the tick: the master's record, and its program. The command, which enters it, brings in the record first.
words: serve --lib lib --port 4000 --control 4001 --swap-time 1 --record record
swap reads fail: 1
status: 7
--- /secure/master.c
object connect() { return this_object(); }
int logon() { enable_commands(); add_action("go", "go"); write("Hello\n"); return 1; }
int go(string s) { write("here\n"); return 1; }
--- wire
accept 1
tick 1
line 1: go
line 0: stop
--- taken
to 1: "Hello\r\n"
--- play
connect 1
tick 1

=== read_of_the_swap_file_lies
words: serve --lib lib --port 4000 --control 4001 --swap-time 1 --record record
swap reads lie: 1
status: 7
--- /secure/master.c
object connect() { return this_object(); }
int logon() { enable_commands(); add_action("go", "go"); write("Hello\n"); return 1; }
int go(string s) { write("here\n"); return 1; }
--- wire
accept 1
tick 1
line 1: go
line 0: stop
--- taken
to 1: "Hello\r\n"
--- play
connect 1
tick 1

=== write_of_the_swap_file_fails
# What cannot be put out stays, and nobody sees it.
words: serve --lib lib --port 4000 --control 4001 --swap-time 1 --record record
swap writes fail: 1,2,3,4
--- /secure/master.c
object connect() { return this_object(); }
int logon() { enable_commands(); add_action("go", "go"); write("Hello\n"); return 1; }
int go(string s) { write("here\n"); return 1; }
--- wire
accept 1
tick 1
line 1: go
line 0: stop
--- taken
to 1: "Hello\r\nhere\r\n"
--- play
connect 1
tick 1
line 1: go
end
