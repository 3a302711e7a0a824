# Served games: what comes over the wire, what each connection is sent, and the record of the run, whose replay is the same game.
# How each connection's sends are cut, and what is offered again when: all that is pending is offered behind each event, and once more at
# the end of each poll.
words: serve --lib lib --port 4000 --control 4001 --record record
--- /secure/master.c
object connect() { return this_object(); }
int logon() { write("Hello\n"); return 1; }
--- wire
accept 1
piece 1 "lo"
piece 1 "\xff\xfd\x01ok"
piece 1 "\r\n"
piece 0 "stop\n"
--- play
connect 1
line 1: look
end

=== line_in_pieces
# A line comes in three pieces, with a telnet command between; it is one line, and each newline goes out as CR LF.
--- taken
to 1: "Hello\r\nWhat?\r\n"

=== seed_and_moment
# The record's head has the seed of the words and the moment at which the wire begins. The first number of the seed 0 below 10 is 5.
moment: 77
words: serve --lib lib --port 4000 --control 4001 --seed 0 --record=record
--- /secure/master.c
object connect() { return this_object(); }
int logon() { write(time() + " " + random(10) + "\n"); return 1; }
--- wire
accept 1
line 0: stop
--- taken
to 1: "77 5\r\n"
--- play
connect 1
end

=== seed_of_the_words
# Another seed stands in the record, too.
words: serve --seed 18446744073709551615 --control 4001 --port=4000 --lib lib --record record
--- wire
line 0: stop
--- written
bytes: "mudscript 1 18446744073709551615 0\nfile /secure/master.c 87\n"
"object connect() { return this_object(); }\nint logon() { write(\"Hello\\n\"); return 1; }\n"
"\nstart\nend\n"

=== greatest_number_and_moment
# A wire begins at 10^12 at most, and a connection may have any number from 1 on.
moment: 1000000000000
--- wire
accept 4294967295
tick 1000000000000
line 4294967295: x
line 0: stop
--- taken
to 4294967295: "Hello\r\nWhat?\r\n"
--- play
connect 4294967295
tick 1000000000000
line 4294967295: x
end

=== one_byte_at_a_time
# Each send takes one byte, so what was sent is a front, and the rest is pending. It is offered behind the event (1) and at the end of the
# poll (2), of the two polls without an event (3, 4), behind the line (5) and at the end of its poll (6), and at the end of the last (7).
takes 1: 1
--- taken
to 1: "Hello\r\n"

=== seven_bytes_at_a_time
# The first text goes in one send; of the second seven bytes, which are all.
takes 1: 7
--- taken
to 1: "Hello\r\nWhat?\r\n"

=== nothing_is_taken
# Who takes nothing is sent nothing. The record is the same.
takes 1: 0
--- taken

=== bounds_one_after_another
# The first send takes nothing, the second three bytes, each one behind it two: behind the greeting nothing, at the end of its poll `Hel`, at
# the first piece `lo`, at the second CR LF; behind the line `Wh`, at the end of its poll `at`, and at the end of the last `?` and CR.
takes 1: 0,3,2
--- taken
to 1: "Hello\r\nWhat?\r"

=== each_connection_by_itself
# Three players, of whom one takes nothing, one a byte and one seven bytes at each send: what one takes changes nothing for the others, and
# the record is the same as if each took all. All that is pending is offered behind each event, whoever it is for, and at the end of each poll:
# connection 2 has two offers at each of five polls, from its own `accept` on, and one at the last, which are 11.
takes 1: 0
takes 2: 1
takes 3: 7
--- /secure/master.c
object connect() { return clone_object("/player"); }
--- /player.c
int logon() { write("Hello\n"); return 1; }
--- wire
accept 1
accept 2
accept 3
line 1: a
line 2: b
line 3: c
line 0: stop
--- taken
to 2: "Hello\r\nWhat"
to 3: "Hello\r\nWhat?\r\n"
--- play
connect 1
connect 2
connect 3
line 1: a
line 2: b
line 3: c
end

=== the_operator_takes_little
# The operator's answers wait for it as a player's texts do: one byte goes behind each of the two answers, and one at the end of each of the
# four polls from the first answer on.
takes 0: 1
--- wire
accept 0
line 0: look
line 0: what
idle
line 0: stop
--- taken
to 0: "unknow"
--- play
end

=== no_events
# A game in which nothing is heard but the operator.
--- wire
line 0: stop
--- play
end

=== without_a_record
# Without a record the log is written: what `connect` writes, where nobody is there yet, and the record of an error.
words: serve --lib lib --port 4000 --control 4001
--- /secure/master.c
object connect() { write("comes"); return this_object(); }
int logon() { enable_commands(); add_action("fail", "fail"); return 1; }
int fail(string s) { return 1 / 0; }
--- wire
accept 1
line 1: fail
line 1: x
line 0: stop
--- taken
to 1: "Your sensitive mind notices a wrongness in the fabric of space.\r\nWhat?\r\n"
--- written
log: "comes"
log: "error: Division by zero [fail of /secure/master, object /secure/master]"

=== log_of_the_start
# What the start writes is the first of the log.
words: serve --lib lib --port 4000 --control 4001
--- /secure/master.c
void create() { write("up"); }
--- wire
line 0: stop
--- written
log: "up"

=== second_connection_is_closed
# The master has a connection already: the second gets nothing and is closed, once, and its lines are no events. The wire then tells that it
# is lost, and it is gone.
--- wire
accept 1
accept 2
piece 2 "hi\n"
lost 2
piece 2 "hi\n"
piece 0 "stop\n"
--- taken
to 1: "Hello\r\n"
close 2
--- play
connect 1
connect 2
gone 2
end

=== what_fits_no_script
# A number that comes again, bytes of nobody, a line whose end comes when its connection is gone, a number that was there before, a moment that
# falls and one that is too great: none is an event.
--- wire
accept 1
accept 1
piece 7 "x\n"
piece 1 "lo"
lost 1
piece 1 "ok\n"
accept 1
lost 1
lost 9
tick 5
tick 4
tick 1000000000001
piece 0 "stop\n"
--- taken
to 1: "Hello\r\n"
--- play
connect 1
gone 1
tick 5
end

=== numbers_below_are_passed_over
# Numbers rise: one below the highest so far is no connection.
--- /secure/master.c
object connect() { return clone_object("/player"); }
--- /player.c
int logon() { write("Hello\n"); return 1; }
--- wire
accept 5
accept 3
line 3: x
line 5: y
accept 6
line 0: stop
--- taken
to 5: "Hello\r\nWhat?\r\n"
to 6: "Hello\r\n"
--- play
connect 5
line 5: y
connect 6
end

=== lines_after_the_close
# LPC closes the connection at the line `quit`, the second of three in one piece: the third is no event, nor is one that comes later. It is
# closed on the wire when its text was taken.
--- /secure/master.c
object connect() { return clone_object("/player"); }
--- /player.c
int logon() { enable_commands(); add_action("quit", "quit"); write("Hello\n"); return 1; }
int quit(string s) { write("Bye\n"); destruct(this_object()); return 1; }
--- wire
accept 1
piece 1 "a\nquit\nb\n"
line 1: c
lost 1
line 1: d
line 0: stop
--- taken
to 1: "Hello\r\nWhat?\r\nBye\r\n"
close 1
--- play
connect 1
line 1: a
line 1: quit
gone 1
end

=== closed_when_its_text_was_taken
# It takes two bytes at each send, so it is closed when the last of its 12 bytes goes, at the sixth send: two behind the greeting, two behind
# the line, one at the poll that gives nothing, and one at the end of the last.
takes 1: 2
--- /secure/master.c
object connect() { return clone_object("/player"); }
--- /player.c
int logon() { enable_commands(); add_action("quit", "quit"); write("Hello\n"); return 1; }
int quit(string s) { write("Bye\n"); destruct(this_object()); return 1; }
--- wire
accept 1
line 1: quit
idle
line 0: stop
--- taken
to 1: "Hello\r\nBye\r\n"
close 1
--- play
connect 1
line 1: quit
end

=== not_closed_before_its_text_was_taken
# The same without the poll that gives nothing: two bytes are pending at the end, and it is not closed. Its line is no event all the same.
takes 1: 2,2,2,1
--- /secure/master.c
object connect() { return clone_object("/player"); }
--- /player.c
int logon() { enable_commands(); add_action("quit", "quit"); write("Hello\n"); return 1; }
int quit(string s) { write("Bye\n"); destruct(this_object()); return 1; }
--- wire
accept 1
line 1: quit
line 1: x
line 0: stop
--- taken
to 1: "Hello\r\nBy"
--- play
connect 1
line 1: quit
end

=== closed_and_lost_before_its_text_was_taken
# It takes nothing, LPC closes it, and it is lost: it is closed on the wire before it is gone.
takes 1: 0
--- /secure/master.c
object connect() { return clone_object("/player"); }
--- /player.c
int logon() { write("No\n"); return 0; }
--- wire
accept 1
lost 1
line 0: stop
--- taken
close 1
--- play
connect 1
gone 1
end

=== disconnect_is_told
# Who is lost is told of to the master, and to nobody who is gone.
--- /secure/master.c
object connect() { return clone_object("/player"); }
void disconnect(object ob) { foreach (object who : users()) if (who != ob) tell_object(who, "one left\n"); }
--- /player.c
int logon() { write("Hello\n"); return 1; }
--- wire
accept 1
accept 2
lost 2
line 0: stop
--- taken
to 1: "Hello\r\none left\r\n"
to 2: "Hello\r\n"
--- play
connect 1
connect 2
gone 2
end

=== hidden_input
# Where input is awaited hidden, the other side is told to stop showing it: 255 251 1, and to show it again: 255 252 1.
--- /secure/master.c
object connect() { return this_object(); }
int logon() { write("Password: "); input_to("got", 1); return 1; }
void got(string s) { write("Hi " + s + "\n"); }
--- wire
accept 1
line 1: secret
line 0: stop
--- taken
to 1: "Password: \xff\xfb\x01\xff\xfc\x01Hi secret\r\n"
--- play
connect 1
line 1: secret
end

=== ticks_and_call_outs
# The clock's moments are ticks; what is due is called.
moment: 10
--- /secure/master.c
object connect() { return this_object(); }
int logon() { call_out("late", 3); return 1; }
void late() { tell_object(this_object(), "at " + time() + "\n"); }
--- wire
tick 10
accept 1
tick 11
tick 13
line 0: stop
--- taken
to 1: "at 13\r\n"
--- play
tick 10
connect 1
tick 11
tick 13
end

=== bytes_of_lines
# A byte 0 is dropped, CR LF is one end and CR alone is one; a line that is no UTF-8 is an event with its bytes; an empty line, too.
--- wire
accept 1
piece 1 "a\x00b\r\n\r\xe9\n\n"
line 0: stop
--- taken
to 1: "Hello\r\nWhat?\r\nWhat?\r\n"
--- play
connect 1
line 1: ab
line 1:
line 1 "\xe9"
line 1:
end

=== longest_line
# Of a line 4096 bytes are kept.
--- wire
accept 1
piece 1 "x" * 4096
piece 1 "y\n"
line 0: stop
--- taken
to 1: "Hello\r\nWhat?\r\n"
--- play
connect 1
line 1 "x" * 4096
end
