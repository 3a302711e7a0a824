# Where messages go: to a connection, to `catch_tell`, or to the log.
--- /b.c
string all;
void catch_tell(string s) { all = all ? all + "," + s : s; }
string heard() { return all; }
void later() { call_out("plays", 0); }
void plays() { enable_commands(); write("here"); }
--- /secure/master.c
object connect() { return this_object(); }
int logon() { @@ return 1; }
void says() { write("hello"); write(5); write(this_object()); write(({ 1 })); write(([ 1: 2 ])); }
void prints() { printf("%d-%s", 1, "x"); }
void asks() { write("/b"->heard()); }
--- play
connect 1
tick 0
end

=== without_a_player_to_the_log
# A record for each message: what `write` makes of a text, a number, an object, an array and a mapping, and a `printf`.
code: call_out("says", 0); call_out("prints", 0);
--- written
log: "hello"
log: "5"
log: "/secure/master"
log: "<ARRAY>"
log: "<MAPPING>"
log: "1-x"
end

=== with_a_player_to_its_connection
# The same messages are one text.
code: says(); prints();
--- written
to 1: "hello5/secure/master<ARRAY><MAPPING>1-x"
end

=== an_object_without_a_connection_catches_them
code: object o; o = load_object("/b"); tell_object(o, "one"); tell_object(o, "two"); write(o->heard());
gives: "one,two"

=== one_that_catches_nothing
# Nothing becomes of the message, and the game goes on.
code: tell_object(clone_object("/secure/master"), "nobody"); write("on");
gives: "on"

=== a_player_without_a_connection_catches_what_is_written
# The object becomes the player of the driver's call: what it writes is told to it.
code: "/b"->later(); call_out("asks", 1);
--- play
connect 1
tick 1
end
--- written
log: "here"
end
