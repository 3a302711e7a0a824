# Connections that do not read: where more than 262144 bytes are pending for one behind the offers of an event, it is closed, what is pending
# is dropped, and it is gone.
words: serve --lib lib --port 4000 --control 4001 --record record
--- /secure/master.c
object connect() { return clone_object("/player"); }
void disconnect(object ob) { foreach (object who : users()) if (who != ob) tell_object(who, "one left\n"); }
--- /player.c
// 65536 letters
string long() { string s; s = "xxxxxxxxxxxxxxxx"; while (strlen(s) < 65536) s += s; return s; }
// four times as many, and a text, to an object
void fill(object who, string more) {
  string s;
  s = long();
  for (int i = 0; i < 4; i++) tell_object(who, s);
  tell_object(who, more);
}
int logon() { enable_commands(); add_action("take", "take"); add_action("send", "send"); return 1; }
int take(string s) { fill(this_object(), s ? s : ""); return 1; }
int send(string s) { foreach (object who : users()) if (who != this_object()) fill(who, s); return 1; }

=== as_much_as_may_be_pending
# 262144 bytes of which none is taken are pending, and stay so; what the next line is answered is too much.
takes 1: 0
--- wire
accept 1
line 1: take
idle
line 1: look
line 0: stop
--- play
connect 1
line 1: take
line 1: look
gone 1
end
--- taken
close 1

=== and_are_taken_later
# They go when the wire takes again: none behind the line, none at the end of its poll, and then all.
takes 1: 0,0,262144
--- wire
accept 1
line 1: take
idle
line 0: stop
--- play
connect 1
line 1: take
end
--- taken
to 1: "x" * 262144

=== a_byte_more
# 262145 bytes: it is closed, once, and gone behind its line; what comes of it later is nothing.
takes 1: 0
--- wire
accept 1
line 1: take y
line 1: look
lost 1
line 0: stop
--- play
connect 1
line 1: take y
gone 1
end
--- taken
close 1

=== a_byte_more_of_which_one_is_taken
# The offer behind the event takes one byte, so 262144 are pending; the end of the poll and that of the last take one each.
takes 1: 1
--- wire
accept 1
line 1: take y
line 0: stop
--- play
connect 1
line 1: take y
end
--- taken
to 1: "xxx"

=== two_bytes_more_of_which_one_is_taken
# 262145 are pending: it is closed, and takes nothing any more.
takes 1: 1
--- wire
accept 1
line 1: take yy
idle
line 0: stop
--- play
connect 1
line 1: take yy
gone 1
end
--- taken
to 1: "x"
close 1

=== newline_is_two_bytes
# Of 262145 letters one is a newline, which goes out as two bytes: of 262146 one is taken, and 262145 are pending.
takes 1: 1
--- /player.c
string long() { string s; s = "xxxxxxxxxxxxxxxx"; while (strlen(s) < 65536) s += s; return s; }
int logon() { string s; s = long(); write("\n"); for (int i = 0; i < 4; i++) write(s); return 1; }
--- wire
accept 1
idle
line 0: stop
--- play
connect 1
gone 1
end
--- taken
to 1: "\r"
close 1

=== letters_of_more_bytes
# 131072 letters of two bytes may be pending; of three bytes 87381 and a letter of one, which are 262144. A line more is too much for the first,
# and that it is gone is told to the second, for whom that is too much.
takes 1: 0
takes 2: 0
--- /player.c
string of(string s, int n) { while (strlen(s) < n) s += s; return s[0..n - 1]; }
int logon() { enable_commands(); add_action("two", "two"); add_action("three", "three"); return 1; }
int two(string s) { string t; t = of("éé", 65536); write(t); write(t); return 1; }
int three(string s) { write(of("€€", 65536)); write(of("€€", 21845)); write("x"); return 1; }
--- wire
accept 1
accept 2
line 1: two
line 2: three
line 1: look
line 0: stop
--- play
connect 1
connect 2
line 1: two
line 2: three
line 1: look
gone 1
gone 2
end
--- taken
close 1
close 2

=== one_is_slow_among_others
# The first takes nothing: it is gone between two lines of one piece of the second, who takes all, and is told.
takes 1: 0
--- wire
accept 1
accept 2
piece 2 "send y\nlook\n"
line 0: stop
--- play
connect 1
connect 2
line 2: send y
gone 1
line 2: look
end
--- taken
to 2: "one left\r\nWhat?\r\n"
close 1

=== two_are_slow
# Both are gone behind one event, the lowest first; what the second would be told of the first's end is pending for it no more when it is gone.
takes 1: 0
takes 2: 0
--- wire
accept 1
accept 2
accept 3
piece 3 "send y\nlook\n"
line 0: stop
--- play
connect 1
connect 2
connect 3
line 3: send y
gone 1
gone 2
line 3: look
end
--- taken
to 3: "one left\r\none left\r\nWhat?\r\n"
close 1
close 2

=== slow_by_another_end
# With 262144 bytes pending the second is not slow; that it is told of the end of the first makes it so, in the same round.
takes 1: 0
takes 2: 0
--- /secure/master.c
object connect() { return clone_object("/player"); }
void disconnect(object ob) { foreach (object who : users()) if (who != ob) tell_object(who, "!"); }
--- wire
accept 1
accept 2
line 2: take
line 1: take y
line 0: stop
--- play
connect 1
connect 2
line 2: take
line 1: take y
gone 1
gone 2
end
--- taken
close 1
close 2

=== closed_by_lpc_and_slow
# LPC closes it with 262144 bytes pending: they wait. It is not slow, so it is gone only when the wire tells that it was lost, and it is closed
# before that.
takes 1: 0
--- /player.c
string long() { string s; s = "xxxxxxxxxxxxxxxx"; while (strlen(s) < 65536) s += s; return s; }
int logon() { string s; s = long(); for (int i = 0; i < 4; i++) write(s); destruct(this_object()); return 1; }
--- wire
accept 1
idle
lost 1
line 0: stop
--- play
connect 1
gone 1
end
--- taken
close 1

=== operator_takes_nothing
# 32768 answers of eight bytes may be pending for the operator.
takes 0: 0
--- wire
accept 0
piece 0 "\n" * 32768
piece 0 "stop\n"
--- play
end

=== operator_is_slow
# With one answer more it is closed, and what is pending is dropped. Its orders are carried out, without an answer, up to a new connection.
takes 0: 0*32769,100
--- /c.c
int v() { return 1; }
--- wire
accept 0
piece 0 "\n" * 32769
piece 0 "\nreload /c.c\nreload /no.c\n"
lost 0
accept 0
piece 0 "\n"
piece 0 "stop\n"
--- play
--- reload /c.c
int v() { return 1; }
--- play
end
--- taken
to 0: "unknown\n"
close 0
