# Heart beats. Each is run once more so that what had no entry for a second goes out after a tick: nobody can tell.
words: replay
words: replay --swap-time=1

=== beat_that_errs_is_the_last
# One that ends in an error is the last one.
--- /h.c
void create() { set_heart_beat(1); } void heart_beat() { 1 / 0; }
--- /secure/master.c
object connect() { return this_object(); }
int logon() { load_object("/h"); return 1; }
--- play
connect 1
tick 2
tick 4
end
--- written
log: "error: Division by zero [heart_beat of /h, object /h]"
end

=== every_two_seconds
# The first comes two seconds later, each next one two seconds after a beat; a longer tick has one beat; one that is switched off has none.
--- /secure/master.c
object connect() { return this_object(); }
int n;
int logon() { write(set_heart_beat(1) + "," + set_heart_beat(1) + "\n"); return 1; }
void heart_beat() { n++; tell_object(this_object(), "beat " + n + "\n"); if (n == 3) set_heart_beat(0); }
--- play
connect 1
tick 1
tick 2
tick 2
tick 3
tick 4
tick 100
tick 100
tick 101
tick 102
end
--- written
to 1: "1,0\n"
to 1: "beat 1\n"
to 1: "beat 2\n"
to 1: "beat 3\n"
end

=== order_of_switching_on
# In order of switching on. `this_player()` is the object, if it is living; what nobody reads goes to the log.
--- /a.c
void create() { set_heart_beat(1); }
void heart_beat() { write("a"); }
--- /secure/master.c
object connect() { return this_object(); }
int logon() { load_object("/a"); enable_commands(); set_heart_beat(1); return 1; }
void heart_beat() { write("thump\n"); }
--- play
connect 1
tick 2
end
--- written
log: "a"
to 1: "thump\n"
end

=== ended_or_switched_off_before_its_turn
# One whose object ended, or that was switched off, when its turn comes does not beat.
--- /a.c
void create() { set_heart_beat(1); }
void heart_beat() { tell_object(load_object("/secure/master"), "a"); set_heart_beat(0); destruct(load_object("/b")); "/c"->off(); }
--- /b.c
void create() { set_heart_beat(1); }
void heart_beat() { tell_object(load_object("/secure/master"), "b"); }
--- /c.c
void create() { set_heart_beat(1); }
void off() { set_heart_beat(0); }
void heart_beat() { tell_object(load_object("/secure/master"), "c"); }
--- /secure/master.c
object connect() { return this_object(); }
int logon() { load_object("/a"); load_object("/b"); load_object("/c"); return 1; }
--- play
connect 1
tick 2
tick 4
end
--- written
to 1: "a"
end

=== player_is_told_of_the_error
# A player is told of the error of a beat, which is the last one.
--- /secure/master.c
object connect() { return this_object(); }
int logon() { enable_commands(); set_heart_beat(1); return 1; }
void heart_beat() { write("thump\n"); throw("x"); }
--- play
connect 1
tick 2
tick 4
end
--- written
to 1: "thump\n"
log: "error: Throw without catch [heart_beat of /secure/master, object /secure/master]"
to 1: "Your sensitive mind notices a wrongness in the fabric of space.\n"
end

=== switched_off_and_on
# One that is switched off and on is the last one, and beats two seconds later; so does one that is switched on at the tick.
--- /a.c
inherit "/h";
int n;
void heart_beat() { ::heart_beat(); if (!n++) { "/b"->again(); "/e"->again(); } }
--- /b.c
inherit "/h";
--- /c.c
inherit "/h";
void heart_beat() { ::heart_beat(); write(set_heart_beat(0) + "" + set_heart_beat(0) + set_heart_beat(5) + set_heart_beat(-1)); }
--- /d.c
inherit "/h";
--- /e.c
inherit "/h";
--- /h.c
void on() { set_heart_beat(1); }
void again() { set_heart_beat(0); set_heart_beat(1); }
void heart_beat() { tell_object(load_object("/secure/master"), load_name()); }
--- /secure/master.c
object connect() { return this_object(); }
int logon() { "/a"->on(); "/b"->on(); "/c"->on(); "/d"->on(); return 1; }
--- play
connect 1
tick 2
tick 3
tick 4
end
--- written
to 1: "/a/c"
log: "1010"
to 1: "/d"
to 1: "/a/d/b/e/c"
log: "1010"
end

=== heart_without_a_function
# A heart beats without a function too; one that ended has none, and switches none on.
--- /a.c
string go() { string s = set_heart_beat(1) + ""; destruct(this_object()); return s + set_heart_beat(0) + set_heart_beat(1); }
void heart_beat() { 1 / 0; }
--- /b.c
void create() { set_heart_beat(1); }
--- /secure/master.c
object connect() { return this_object(); }
int logon() { write("/a"->go() + "\n"); load_object("/b"); return 1; }
--- play
connect 1
tick 2
tick 4
end
--- written
to 1: "100\n"
end
