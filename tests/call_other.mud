# `call_other` and `load_object`: which targets there are, what is loaded for them, and what they come to.
--- /obj/sword.c
// Who is called with what.
string f(mixed a, mixed b, mixed c, mixed d) { return sprintf("%O.f(%O, %O, %O, %O)", this_object(), a, b, c, d); }
object dies() { destruct(this_object()); return this_object(); }
object dies_and_tells() { object o; o = this_object(); destruct(o); return o; }
mixed tells() { return ({ "a" }); }
void fails() { raise_error("ouch"); }
--- /obj/none.c
inherit "/obj/sword";
void create() { write("loaded\n"); }
--- /obj/dead.c
inherit "/obj/sword";
void create() { if (this_player()) write("loaded\n"); }
--- /obj/sword.c.c
inherit "/obj/sword";
void create() { write("loaded\n"); }
--- /.c
inherit "/obj/sword";
void create() { write("loaded\n"); }
--- /obj/brief.c
void create() { write("brief\n"); destruct(this_object()); }
--- /obj/faulty.c
int f( {
--- /secure/master.c
#define SHOW(e) error = catch(value = e); if (error) write(error); else printf("%O\n", value);
mixed error, value;
object sword, blade, gone;
object connect() {
  sword = load_object("/obj/sword"); blade = clone_object("/obj/sword"); gone = clone_object("/obj/sword"); destruct(gone);
  destruct(load_object("/obj/dead"));
  return this_object();
}
int logon() { @@ return 1; }
--- play
connect 1
end

=== arguments
# What is missing is 0, and so is an object that ended; what is too much is dropped.
code: SHOW(call_other(sword, "f")) SHOW(call_other(sword, "f", 1, "x", ({ 2, 3 }))) SHOW(call_other(blade, "f", gone)) SHOW(sword->f(1, 2, 3, 4, 5))
gives: "\"/obj/sword.f(0, 0, 0, 0)\"\n\"/obj/sword.f(1, \\\"x\\\", ({ 2, 3 }), 0)\"\n\"/obj/sword#1.f(0, 0, 0, 0)\"\n\"/obj/sword.f(1, 2, 3, 4)\"\n"

=== no_targets
# An object that ended is none, and so is what is neither an object nor a text.
code: SHOW(call_other(gone, "f")) SHOW(call_other(1, "f")) SHOW(call_other(({ }), "f")) SHOW(call_other(([ ]), "f")) SHOW(call_other(0, "f"))
gives: "*Bad target\n*Bad target\n*Bad target\n*Bad target\n*Bad target\n"

=== no_names_of_functions
# A name is a text, and this is looked at before anything is loaded; the target is looked at later.
code: SHOW(call_other(sword, 1)) SHOW(call_other("/obj/none", sword)) SHOW(call_other(gone, 1)) SHOW(call_other(sword, gone))
gives: "*Bad argument 2 to call_other\n*Bad argument 2 to call_other\n*Bad argument 2 to call_other\n*Bad argument 2 to call_other\n"

=== no_functions
# A name that is none is 0.
code: SHOW(call_other(sword, "")) SHOW(call_other(sword, "g")) SHOW(call_other(sword, "F"))
gives: "0\n0\n0\n"

=== targets_by_their_names
# With or without what stands before and behind them, where they are there; a name with a number is never loaded.
code: SHOW("/obj/sword"->f(1)) SHOW("obj/sword.c"->f()) SHOW("/obj/sword#1"->f()) SHOW("/obj/sword#9"->f()) SHOW("#"->f()) SHOW("/obj/none#1"->f())
gives: "\"/obj/sword.f(1, 0, 0, 0)\"\n\"/obj/sword.f(0, 0, 0, 0)\"\n\"/obj/sword#1.f(0, 0, 0, 0)\"\n*Bad target\n*Bad target\n*Bad target\n"

=== targets_that_are_loaded
# Those that are not there are loaded, once; also one that ended.
code: SHOW("/obj/none"->f()) SHOW("obj/none.c"->f(1, "x", ({ 2, 3 }))) SHOW("/obj/dead"->f(gone))
gives: "loaded\n\"/obj/none.f(0, 0, 0, 0)\"\n\"/obj/none.f(1, \\\"x\\\", ({ 2, 3 }), 0)\"\nloaded\n\"/obj/dead.f(0, 0, 0, 0)\"\n"

=== one_ending_goes
# Of two endings `.c` one is taken off; and the empty name is that of the file `/.c`.
code: SHOW("/obj/sword.c.c"->f()) SHOW(""->f()) SHOW("/obj/none"->g())
gives: "loaded\n\"/obj/sword.c.f(0, 0, 0, 0)\"\nloaded\n\"/.f(0, 0, 0, 0)\"\nloaded\n0\n"

=== targets_that_end_as_they_are_loaded
# They are none then.
code: SHOW("/obj/brief"->f())
gives: "brief\n*Bad target\n"

=== targets_that_cannot_be_loaded
# The error goes to the caller; what is wrong is told in the log.
code: SHOW("/obj/faulty"->f()) SHOW(load_object("/obj/nothing"))
--- written
log: "/obj/faulty.c line 1: unexpected token"
to 1: "*Could not load /obj/faulty\n"
log: "/obj/nothing.c line 0: no such file"
to 1: "*Could not load /obj/nothing\n"
end

=== answers
# An object that ended by then is 0, also one that was loaded for the call.
code: SHOW(blade->dies()) SHOW("/obj/none"->dies_and_tells()) SHOW(sword->tells()) SHOW(sword->dies_and_tells()) SHOW(sword)
gives: "0\nloaded\n0\n({ \"a\" })\n0\n0\n"

=== errors
# An error in the function goes to the caller, which goes on with what it had.
code: SHOW(({ 1, catch(sword->fails()), catch("/obj/none"->fails()), 2 }))
gives: "loaded\n({ 1, \"*ouch\\n\", \"*ouch\\n\", 2 })\n"

=== loaded
# What is there is not loaded again, whatever is spelled round its name.
code: SHOW(load_object("/obj/sword")) SHOW(load_object("obj/sword.c")) SHOW(load_object("/obj/sword#1")) SHOW(load_object("/obj/sword#9"))
code: SHOW(load_object("/obj/none")) SHOW(load_object("/obj/none")) SHOW(load_object("obj/dead.c")) SHOW(load_object(""))
gives: "/obj/sword\n/obj/sword\n/obj/sword#1\n*Bad target\nloaded\n/obj/none\n/obj/none\nloaded\n/obj/dead\nloaded\n/\n"

=== one_that_ends_as_it_is_loaded
# The load answers it, and it is 0.
code: SHOW(load_object("/obj/brief")) SHOW(load_object("/obj/brief"))
gives: "brief\n0\nbrief\n0\n"

=== loads_that_fail
# The error goes to the caller; the object is there nevertheless, and is not loaded again.
code: SHOW(load_object("/obj/sick")) SHOW(load_object("/obj/sick")) SHOW(({ 1, catch("/obj/sick2"->f()), 2 }))
gives: "*ouch\n/obj/sick\n({ 1, \"*ouch\\n\", 2 })\n"
--- /obj/sick.c
void create() { raise_error("ouch"); }
--- /obj/sick2.c
inherit "/obj/sick";

=== no_names
# Only a text is loaded.
code: SHOW(load_object(1)) SHOW(load_object(sword)) SHOW(load_object(({ "/obj/none" }))) SHOW(load_object(gone))
gives: "*Bad argument 1 to load_object\n*Bad argument 1 to load_object\n*Bad argument 1 to load_object\n*Bad argument 1 to load_object\n"
