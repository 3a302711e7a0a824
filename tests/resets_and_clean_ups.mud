# `reset` and `clean_up`, and the order of a tick. Each is run once more so that what had no entry for a second goes out after a tick: nobody can tell.
words: replay
words: replay --swap-time=1

=== order_of_a_tick
# Call-outs by their moment, beats, resets, clean-ups; the next ones count from the tick.
--- /o.c
void create() { set_heart_beat(1); call_out("late", 3); call_out("soon", 1); }
void m(string s) { "/secure/master"->note(s + " "); }
void late() { m("late"); }
void soon() { m("soon"); }
void heart_beat() { m("beat"); }
void reset() { m("reset"); }
int clean_up(int n) { m("clean" + n); return 1; }
--- /secure/master.c
object connect() { return this_object(); }
int logon() { load_object("/o"); return 1; }
void note(string s) { tell_object(this_object(), s); }
--- play
connect 1
tick 3600
tick 3601
tick 5399
tick 5400
tick 7199
tick 7200
end
--- written
to 1: "soon late beat reset clean1 "
to 1: "beat "
to 1: "reset "
to 1: "beat "
to 1: "reset clean1 "
end

=== clean_up_of_clones_and_blueprints
# `clean_up` is called with 0 for a clone and 1 for a blueprint, and after the answer 0 not again.
--- /o.c
int clean_up(int n) { "/secure/master"->note(object_name() + " " + n + "\n"); return n; }
--- /secure/master.c
object connect() { return this_object(); }
int logon() { clone_object("/o"); return 1; }
void note(string s) { tell_object(this_object(), s); }
--- play
connect 1
tick 3599
tick 3600
tick 7200
end
--- written
to 1: "/o 1\n"
      "/o#1 0\n"
to 1: "/o 1\n"
end

=== not_watched_without_the_function
# What has no such function is not watched, and what ends in a reset is not asked.
--- /a.c
void reset() { "/secure/master"->note("reset\n"); destruct(this_object()); }
int clean_up(int n) { "/secure/master"->note("clean\n"); return 1; }
--- /b.c
--- /secure/master.c
object connect() { return this_object(); }
int logon() { load_object("/a"); load_object("/b"); return 1; }
void note(string s) { tell_object(this_object(), s); }
--- play
connect 1
tick 3600
tick 7200
end
--- written
to 1: "reset\n"
end

=== ended_in_the_reset_of_another
# What ends in the reset of another is not reset; one that is made in it is reset later.
--- /a.c
void reset() { "/secure/master"->note("a"); destruct(load_object("/b")); load_object("/b"); }
--- /b.c
void reset() { "/secure/master"->note("b"); }
int clean_up(int n) { "/secure/master"->note("clean"); return 1; }
--- /secure/master.c
object connect() { return this_object(); }
int logon() { load_object("/a"); load_object("/b"); return 1; }
void note(string s) { tell_object(this_object(), s + "\n"); }
--- play
connect 1
tick 1800
tick 3599
end
--- written
to 1: "a\n"
end

=== errors_of_resets_and_clean_ups
# An error of a reset changes nothing for the next one; after one of a `clean_up` it is not asked again.
--- /secure/master.c
int n;
object connect() { return this_object(); }
int logon() { return 1; }
void reset() { tell_object(this_object(), "reset\n"); throw(++n); }
int clean_up(int x) { tell_object(this_object(), "clean\n"); return 1 / 0; }
--- play
connect 1
tick 3600
tick 7200
end
--- written
to 1: "reset\n"
log: "error: Throw without catch [reset of /secure/master, object /secure/master]"
to 1: "clean\n"
log: "error: Division by zero [clean_up of /secure/master, object /secure/master]"
to 1: "reset\n"
log: "error: Throw without catch [reset of /secure/master, object /secure/master]"
end

=== ended_or_made_in_another
# What ends, or is made, in the reset or clean-up of another: the one is passed over, the other comes later.
--- /a.c
void reset() { "/secure/master"->note("reset " + object_name()); "/secure/master"->next(); }
int clean_up(int n) { "/secure/master"->note("clean " + object_name()); destruct(this_object()); return 1; }
--- /secure/master.c
object connect() { return this_object(); }
object *all;
int logon() { int i; load_object("/a"); all = ({ }); for (i = 0; i < 3; i++) all += ({ clone_object("/a") }); return 1; }
void next() { if (all[1]) { destruct(all[1]); all[1] = 0; clone_object("/a"); } }
void note(string s) { tell_object(this_object(), s + "\n"); }
--- play
connect 1
tick 1800
tick 1801
tick 3600
tick 5399
tick 5400
end
--- written
to 1: "reset /a\n"
      "reset /a#1\n"
      "reset /a#3\n"
to 1: "reset /a\n"
      "reset /a#1\n"
      "reset /a#3\n"
      "reset /a#4\n"
      "clean /a\n"
      "clean /a#1\n"
      "clean /a#3\n"
to 1: "reset /a#4\n"
      "clean /a#4\n"
end
