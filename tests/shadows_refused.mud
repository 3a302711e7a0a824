# What stands in the way of a shadow before the master is asked, and after. The master tells where it is
# asked.
# Each case also with all objects and programs out before it.
words: replay
words: replay --swap-time 1
--- /guarded.c
int f() { return 1; } nomask int m() { return 2; }
int on(mixed o) { return shadow(o); }
--- /open.c
int m() { return 3; }
int on(mixed o) { return shadow(o); }
int open_on(mixed o) { return shadow(o); }
--- /plain.c
int g() { return 4; }
int on(mixed o) { return shadow(o); }
int off() { return unshadow(); }
int dead_on(mixed o) { destruct(this_object()); return shadow(o); }
mixed dead_on_caught(mixed o) { destruct(this_object()); return catch(shadow(o)); }
--- /heir.c
inherit "/guarded";
--- /promised.c
nomask int m();
int on(mixed o) { return shadow(o); }
--- /proud.c
#pragma no_shadow
int g() { return 5; }
int on(mixed o) { return shadow(o); }
--- /hidden.c
private int m() { return 6; }
int on(mixed o) { return shadow(o); }
--- /secure/master.c
object guarded, open, plain, proud, promised, hidden, heir, twin, other;
int allows;
object connect() { return this_object(); }
int query_allow_shadow(object o) { write("asked for " + object_name(o) + ": "); return allows; }
int logon() {
  guarded = load_object("/guarded"); open = load_object("/open"); plain = load_object("/plain"); proud = load_object("/proud");
  promised = load_object("/promised"); hidden = load_object("/hidden"); heir = load_object("/heir");
  twin = clone_object("/plain"); other = clone_object("/plain");
  enable_commands(); add_action("go", "go");
  return 1;
}
void tells(object a, mixed b) { write(a->on(b) + "\n"); }
int go(string s) { @@ return 1; }
--- play
connect 1
tick 1
line 1: go
end

=== a_nomask_function_of_the_other
# This object has a function of its name; a private one too, and not a prototype alone. One that has none, and one that only has a
# nomask function itself, may ask.
code: tells(open, guarded); tells(hidden, guarded); tells(plain, guarded); tells(promised, guarded); tells(guarded, open);
gives: "0\n0\nasked for /guarded: 0\nasked for /guarded: 0\nasked for /open: 0\n"

=== an_inherited_nomask_function_of_the_other
# As its parent's; and this object's is its parent's too.
code: tells(open, heir); tells(plain, heir); tells(heir, guarded); tells(heir, open);
gives: "0\nasked for /heir: 0\n0\nasked for /open: 0\n"

=== a_nomask_prototype_of_the_other
# What has no body forbids nothing.
code: tells(open, promised);
gives: "asked for /promised: 0\n"

=== a_file_that_forbids_it
# By its pragma, which does not keep itself from shadowing another.
code: tells(plain, proud); tells(proud, plain);
gives: "0\nasked for /plain: 0\n"

=== functions_of_one_name
# That are not nomask are what a shadow is for. Of itself an object is none.
code: tells(open, plain); tells(plain, plain);
gives: "asked for /plain: 0\n0\n"

=== a_destructed_object
# That calls it gets 0, and nobody is asked. As the other it reads as 0, which is no object.
code: write(twin->dead_on(plain) + "\n"); destruct(other); write(catch(plain->on(other)));
gives: "0\n*Bad argument 1 to shadow\n"

=== what_is_no_object
# From an object that lives, and from one that is destructed, which looks at it too.
code: write(catch(plain->on(1)) + twin->dead_on_caught(1)); plain->on(1);
--- written
to 1: "*Bad argument 1 to shadow\n*Bad argument 1 to shadow\n"
log: "error: Bad argument 1 to shadow [on of /plain, object /plain]"
to 1: "Your sensitive mind notices a wrongness in the fabric of space.\n"
end

=== where_the_master_allows_it
# It shadows from then on. A shadow may shadow no other, and nobody may shadow it; what is shadowed may get one more shadow, and may be
# none itself. Where one ends its shadowing it may begin again, and not over the one that shadows still.
code: allows = 1; tells(plain, open); write(sprintf("%O\n", query_shadowing(plain)));
code: tells(plain, other); tells(twin, plain); write(open->open_on(other) + "\n"); tells(twin, open);
code: plain->off(); write(sprintf("%O\n", query_shadowing(plain))); tells(plain, twin); tells(plain, open);
gives: "asked for /open: 1\n/open\n0\n0\n0\nasked for /open: 1\n0\n0\nasked for /open: 1\n"

=== an_object_in_another
# May be no shadow; what it lies in may.
code: allows = 1; move_object(twin, other); tells(twin, open); tells(other, open);
gives: "0\nasked for /open: 1\n"

=== the_master_that_is_asked_is_loaded
# It ended before it is asked, and its new life knows of nothing that was allowed. With the old one the connection ended, so what is
# written goes to the log.
code: object a, b; a = plain; b = open; allows = 1; destruct(this_object()); write(a->on(b));
--- written
close 1
log: "asked for /open: "
log: "0"
end

=== a_program_that_cannot_be_read
# The program of the other is out, and is wanted for its nomask functions: the run ends there.
words: replay
status: 7
swap reads fail: 1
code: tells(plain, guarded);
--- play
connect 1
line 1: what
swap /guarded
line 1: go
end
--- written
to 1: "What?\n"

=== a_program_that_is_read_falsely
words: replay
status: 7
swap reads lie: 1
code: tells(plain, guarded);
--- play
connect 1
line 1: what
swap /guarded
line 1: go
end
--- written
to 1: "What?\n"
