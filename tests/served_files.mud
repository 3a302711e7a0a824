# The folder of a served game: what LPC writes and removes is written and removed there behind the turn that changed it, once more at the end
# of each poll, and last behind `stop`; the files are read once, and by the operator's `reload`.
# Calls of the folder are counted: the first loads the files.
words: serve --lib lib --port 4000 --control 4001 --record record
--- /a.txt
old
--- /secure/master.c
object connect() { return this_object(); }
int valid_read() { return 1; } int valid_write() { return 1; }
int logon() {
  enable_commands();
  add_action("put", "put"); add_action("drop", "drop"); add_action("read", "read"); add_action("call", "call");
  write("Hello\n");
  return 1;
}
int put(string s) { write(write_file(s, "x") + "\n"); return 1; }
int drop(string s) { write(rm(s) + "\n"); return 1; }
int read(string s) { write(read_file(s)); return 1; }
int call(string s) { mixed x; string e; e = catch(x = s->v()); write(e ? e : x + "\n"); return 1; }
--- wire
accept 1
line 1: put /n.txt
line 0: stop
--- taken
to 1: "Hello\r\n1\r\n"
--- play
connect 1
line 1: put /n.txt
end

=== files_cannot_be_loaded
# The first call: nothing is polled, sent or written.
files fail: 1
status: 8
--- taken
--- written
--- told
the files failed at /

=== new_file
# It is written behind the turn.
--- left /n.txt "x"

=== write_2_fails
# It is tried again at the end of the poll.
files fail: 2
--- left /n.txt "x"

=== writes_2_and_3_fail
# It is tried again at the end of the last poll.
files fail: 2,3
--- left /n.txt "x"

=== writes_2_to_4_fail
# It is tried a last time behind `stop`.
files fail: 2,3,4
--- left /n.txt "x"

=== writes_2_to_5_fail
# The last try fails: the status names the path, the record has its end, and what players were sent is the same.
files fail: 2,3,4,5
status: 8
--- told
the files failed at /n.txt

=== writes_2_to_4_fail_and_6_would
# No further call is made behind the one that succeeds.
files fail: 2,3,4,6
--- left /n.txt "x"

=== two_files_of_which_one_stays
# Two files by path: the first is tried and kept, the second fails, at each try; so the numbers of its tries are 3, 4, 5 and 6.
files fail: 3,4,5,6
status: 8
--- wire
accept 1
piece 1 "put /n.txt\nput /o.txt\n"
line 0: stop
--- taken
to 1: "Hello\r\n1\r\n1\r\n"
--- play
connect 1
line 1: put /n.txt
line 1: put /o.txt
end
--- left /n.txt "x"
--- told
the files failed at /o.txt

=== first_of_two_stays
# Both fail behind their turns and at the end of each poll, and the last try begins with the first: it fails, and the second is not tried
# again. Calls: behind the first line n (2); behind the second n and o (3, 4); at its poll's end n and o (5, 6); at the last n and o (7, 8); n (9).
files fail: 2,3,4,5,6,7,8,9
status: 8
--- wire
accept 1
piece 1 "put /n.txt\nput /o.txt\n"
line 0: stop
--- taken
to 1: "Hello\r\n1\r\n1\r\n"
--- play
connect 1
line 1: put /n.txt
line 1: put /o.txt
end
--- told
the files failed at /n.txt

=== second_of_two_is_kept_at_the_end
# The same, but the try of `/o.txt` at the end of the last poll succeeds.
files fail: 2,3,4,5,6,7,9
status: 8
--- wire
accept 1
piece 1 "put /n.txt\nput /o.txt\n"
line 0: stop
--- taken
to 1: "Hello\r\n1\r\n1\r\n"
--- play
connect 1
line 1: put /n.txt
line 1: put /o.txt
end
--- left /o.txt "x"
--- told
the files failed at /n.txt

=== appended_and_removed
# What is appended is written whole, and what is removed is removed; of a path that was both no more than the end counts.
--- wire
accept 1
line 1: put /a.txt
line 1: put /n.txt
line 1: drop /n.txt
line 1: drop /no.txt
line 0: stop
--- taken
to 1: "Hello\r\n1\r\n1\r\n1\r\n0\r\n"
--- play
connect 1
line 1: put /a.txt
line 1: put /n.txt
line 1: drop /n.txt
line 1: drop /no.txt
end
--- left /a.txt "old\nx"

=== removed
--- wire
accept 1
line 1: drop /a.txt
line 0: stop
--- play
connect 1
line 1: drop /a.txt
end
--- removed /a.txt

=== removal_fails
# Each try fails, so the file is there still, and is not for the game.
files fail: 2,3,4,5,6,7,8,9
status: 8
--- wire
accept 1
line 1: drop /a.txt
line 1: read /a.txt
line 0: stop
--- taken
to 1: "Hello\r\n1\r\n0"
--- play
connect 1
line 1: drop /a.txt
line 1: read /a.txt
end
--- told
the files failed at /a.txt

=== polls_spent_with_a_file_unwritten
# Where the polls are spent there is no last try, and no fault of files.
words: serve --lib lib --port 4000 --control 4001 --record record --turns 2
files fail: 2,3
status: 10

=== poll_fails_behind_a_write
# What was written stays.
polls fail: 3
status: 9
--- play
connect 1
line 1: put /n.txt
--- left /n.txt "x"

=== saved_by_the_start
# What `create` writes at the start is written at the end of the first poll.
--- /secure/master.c
int valid_write() { return 1; }
void create() { write_file("/up.txt", "up"); }
--- wire
idle
line 0: stop
--- taken
--- play
end
--- left /up.txt "up"

=== files_outside_are_not_looked_at
# Others change `/a.txt` before the second call, which is the write of `/n.txt`: the game reads what it loaded.
--- wire
accept 1
line 1: put /n.txt
line 1: read /a.txt
line 0: stop
--- edited 2 /a.txt
new
--- taken
to 1: "Hello\r\n1\r\nold\r\n"
--- play
connect 1
line 1: put /n.txt
line 1: read /a.txt
end
--- left /a.txt
new
--- left /n.txt "x"
