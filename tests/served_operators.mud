# The operator of a served game: `reload PATH` and `stop`, exactly, and every other line is unknown.
words: serve --lib lib --port 4000 --control 4001 --record record
--- /c.c
string v() { return "old"; }
--- /secure/master.c
object connect() { return this_object(); }
int logon() { enable_commands(); add_action("call", "call"); write("Hello\n"); return 1; }
int call(string s) { mixed x; string e; e = catch(x = s->v()); write(e ? e : x + "\n"); return 1; }

=== good_file
# The file has a new text when the folder is called for the second time, for the reload. Its blueprint is destructed, and the next call loads
# the new text. It is not on the list of changed files, so the folder is not written.
--- wire
accept 0
accept 1
line 1: call /c
line 0: reload /c.c
line 1: call /c
line 0: stop
--- edited 2 /c.c
string v() { return "new"; }
--- taken
to 0: "ok\n"
to 1: "Hello\r\nold\r\nnew\r\n"
--- play
connect 1
line 1: call /c
--- reload /c.c
string v() { return "new"; }
--- play
line 1: call /c
end
--- left /c.c
string v() { return "new"; }

=== faulty_file
# A file with a fault is reloaded, too: `ok`. The next call finds the fault.
--- wire
accept 0
accept 1
line 1: call /c
line 0: reload /c.c
line 1: call /c
line 0: stop
--- edited 2 /c.c
string v( { return "new"; }
--- taken
to 0: "ok\n"
to 1: "Hello\r\nold\r\n*Could not load /c\r\n"
--- play
connect 1
line 1: call /c
--- reload /c.c
string v( { return "new"; }
--- play
line 1: call /c
end
--- left /c.c
string v( { return "new"; }

=== missing_file
# A file that is not there is no event, and its failed read is no fault of the run.
--- wire
accept 0
line 0: reload /no.c
line 0: stop
--- taken
to 0: "reload failed\n"
--- play
end

=== failing_read
# The read of a file that is there fails once: no event; the next succeeds.
files fail: 2
--- wire
accept 0
line 0: reload /c.c
line 0: reload /c.c
line 0: stop
--- taken
to 0: "reload failed\nok\n"
--- play
--- reload /c.c
string v() { return "old"; }
--- play
end

=== bad_paths
# What is no path is not read: a word without `/`, parts that are `..` or empty, a letter beyond ASCII, a space, nothing, and 257 bytes.
--- wire
accept 0
line 0: reload c.c
line 0: reload /../c.c
line 0: reload //c.c
line 0: reload /é.c
piece 0 "reload /c.c \nreload \nreload /"
"x" * 256
"\n"
line 0: stop
--- edited 2 /c.c
string v() { return "new"; }
--- taken
to 0: "reload failed\n" * 7
--- play
end

=== unknown_orders
# Each other line is unknown: the empty one, letters of another size, a word more, a space before, and `reload` alone.
--- wire
accept 0
line 0:
line 0: STOP
line 0: stop now
line 0:  stop
line 0: reload
line 0: Reload /c.c
line 0: stop
--- taken
to 0: "unknown\n" * 6
--- play
end

=== new_file
# A file that the game has not loaded comes in by the same order.
--- wire
accept 0
accept 1
line 1: call /new
line 0: reload /new.c
line 1: call /new
line 0: stop
--- edited 2 /new.c
string v() { return "here"; }
--- taken
to 0: "ok\n"
to 1: "Hello\r\n*Could not load /new\r\nhere\r\n"
--- play
connect 1
line 1: call /new
--- reload /new.c
string v() { return "here"; }
--- play
line 1: call /new
end
--- left /new.c
string v() { return "here"; }

=== file_of_no_program
# A file whose name does not end in `.c` is reloaded without an end of an object.
--- /a.txt
old
--- wire
accept 0
line 0: reload /a.txt
line 0: stop
--- edited 2 /a.txt "new"
--- taken
to 0: "ok\n"
--- play
--- reload /a.txt "new"
--- play
end
--- left /a.txt "new"

=== orders_in_pieces
# Orders are lines of a stream like a player's; nothing behind `stop` counts, in its piece and behind it.
--- wire
accept 0
piece 0 "look\r\nreload /no.c\nsto"
piece 0 "p\nlook\nreload /c.c\n"
accept 1
--- taken
to 0: "unknown\nreload failed\n"
--- play
end

=== without_an_accept
# Bytes of the operator count before its connection was told of, too.
--- wire
piece 0 "look\nstop\n"
--- taken
to 0: "unknown\n"
--- play
end

=== spans
# Half a line of a connection that was lost is no line of the next; `Accept` alone begins anew as well.
--- wire
accept 0
piece 0 "sto"
lost 0
accept 0
piece 0 "p\n"
piece 0 "sto"
accept 0
piece 0 "p\n"
piece 0 "stop\n"
--- taken
to 0: "unknown\nunknown\n"
--- play
end

=== answers_of_a_span_that_ended
# What was pending for a connection that was lost goes to nobody: the operator takes nothing of the first answer.
takes 0: 0,0,100
--- wire
accept 0
line 0: look
lost 0
accept 0
line 0: reload /no.c
line 0: stop
--- taken
to 0: "reload failed\n"
--- play
end

=== stop_in_the_middle_of_outputs
# The wire takes a byte of the line's outputs at each send when the operator stops the game: what was taken is a front, and the run is done.
takes 1: 7,1
--- wire
accept 1
line 1: call /c
line 0: stop
line 1: call /c
--- taken
to 1: "Hello\r\nold"
--- play
connect 1
line 1: call /c
end

=== players_and_the_operator
# The operator is no player: it is not told of to LPC, and a player who types its orders is answered as ever.
--- wire
accept 0
accept 1
line 1: stop
line 1: reload /c.c
lost 0
line 0: stop
--- taken
to 1: "Hello\r\nWhat?\r\nWhat?\r\n"
--- play
connect 1
line 1: stop
line 1: reload /c.c
end
