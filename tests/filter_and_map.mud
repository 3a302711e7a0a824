# `filter` and `map`: which function of which object is called for each item, and arrays and objects that change meanwhile.
--- /obj/sword.c
// It notes who is called with what; and answers what the case says.
mixed f(mixed a, mixed b, mixed c) { "/secure/master"->note(sprintf("%O(%O, %O, %O) ", this_object(), a, b, c)); return "/event"->answers(a, b); }
--- /room/hall.c
--- /event.c
mixed answers(mixed a, mixed b) { return 1; }
--- /secure/master.c
// The calls, and what they come to.
#define SHOW(e) notes = ""; error = catch(value = e); write(notes + (error ? error : sprintf("%O\n", value)));
mixed error, value;
mixed *items;
string notes;
object blade, hall, gone;
void note(string s) { notes += s; }
mixed *query_items() { return items; }
mixed f(mixed a) { note(sprintf("%O(%O) ", this_object(), a)); return 1; }
object connect() { hall = load_object("/room/hall"); blade = clone_object("/obj/sword"); gone = clone_object("/obj/sword"); destruct(gone); return this_object(); }
int logon() { @@ return 1; }
--- play
connect 1
end

=== filtered
# Items of which the function says anything but 0, in their order.
code: SHOW(filter(({ 7, 8, 9 }), "f", blade))
gives: "/obj/sword#1(7, 0, 0) /obj/sword#1(8, 0, 0) /obj/sword#1(9, 0, 0) ({ 7, 9 })\n"
--- /event.c
mixed answers(mixed a, mixed b) { return ([ 7: 1, 8: 0, 9: "" ])[a]; }

=== further_arguments
# They stand behind the item in each call.
code: SHOW(filter(({ 7, 8 }), "f", blade, "a", 3)) SHOW(map(({ "a" }), "f", blade, hall))
gives: "/obj/sword#1(7, \"a\", 3) /obj/sword#1(8, \"a\", 3) ({ 7, 8 })\n/obj/sword#1(\"a\", /room/hall, 0) ({ 0 })\n"
--- /event.c
mixed answers(mixed a, mixed b) { object o; if (a == 7) return -1; if (a == 8) return ({ }); o = clone_object("/room/hall"); destruct(o); return o; }

=== in_this_object
# Where no object is given, the function is this object's.
code: SHOW(filter(({ 7 }), "f")) SHOW(map(({ 7 }), "f"))
gives: "/secure/master(7) ({ 7 })\n/secure/master(7) ({ 1 })\n"

=== an_answer_that_ended
# An object that ended says no.
code: SHOW(filter(({ 7 }), "f", blade))
gives: "/obj/sword#1(7, 0, 0) ({ })\n"
--- /event.c
mixed answers(mixed a, mixed b) { object o; o = clone_object("/room/hall"); destruct(o); return o; }

=== no_items
# Nothing is called.
code: SHOW(filter(({ }), "f", blade)) SHOW(map(({ }), "f", blade)) SHOW(map(({ }), "f"))
gives: "({ })\n({ })\n({ })\n"

=== items_that_are_objects
# One that ended is 0, in the call and in what comes of it.
code: object o; o = clone_object("/obj/sword"); items = ({ blade, o }); destruct(o); SHOW(filter(items, "f", blade)) SHOW(map(items, "f", blade))
gives: "/obj/sword#1(/obj/sword#1, 0, 0) /obj/sword#1(0, 0, 0) ({ /obj/sword#1, 0 })\n"
       "/obj/sword#1(/obj/sword#1, 0, 0) /obj/sword#1(0, 0, 0) ({ 1, 1 })\n"

=== mapped
# What the function answers, in the order of the items.
code: SHOW(map(({ 7, 8, 9 }), "f", blade))
gives: "/obj/sword#1(7, 0, 0) /obj/sword#1(8, 0, 0) /obj/sword#1(9, 0, 0) ({ 1, 0, ({ \"b\" }) })\n"
--- /event.c
mixed answers(mixed a, mixed b) { return ([ 7: 1, 8: 0, 9: ({ "b" }) ])[a]; }

=== a_missing_function
# It answers 0.
code: SHOW(filter(({ 7 }), "none", blade)) SHOW(map(({ 7 }), "none", blade))
gives: "({ })\n({ 0 })\n"

=== the_array_changes_meanwhile
# The items are those at the beginning.
code: items = ({ 7, 8, 9 }); SHOW(map(items, "f", blade)) SHOW(items)
code: items = ({ 7, 8, 9 }); SHOW(filter(items, "f", blade)) SHOW(items)
gives: "/obj/sword#1(7, 0, 0) /obj/sword#1(8, 0, 0) /obj/sword#1(9, 0, 0) ({ 1, 2, 3 })\n({ 100, 100, \"x\" })\n"
       "/obj/sword#1(7, 0, 0) /obj/sword#1(8, 0, 0) /obj/sword#1(9, 0, 0) ({ 7, 8, 9 })\n({ 100, 100, \"x\" })\n"
--- /event.c
mixed answers(mixed a, mixed b) {
  mixed *items;
  items = "/secure/master"->query_items();
  items[0] = 100; items[1] = 100; items[2] = "x";
  return a - 6;
}

=== the_object_ends_meanwhile
# It is no target at the next item; at the last one nothing asks for it any more.
code: SHOW(filter(({ 7, 8, 9 }), "f", blade)) blade = clone_object("/obj/sword"); SHOW(map(({ 7, 8 }), "f", blade))
gives: "/obj/sword#1(7, 0, 0) /obj/sword#1(8, 0, 0) *Bad target\n/obj/sword#3(7, 0, 0) /obj/sword#3(8, 0, 0) ({ 1, 2 })\n"
--- /event.c
mixed answers(mixed a, mixed b) { if (a == 8) destruct(previous_object()); return a - 6; }

=== an_item_ends_meanwhile
# It is 0 in its turn, and an answer that ends later is 0 in what comes of it.
code: object o; o = clone_object("/room/hall"); items = ({ o, o }); SHOW(map(items, "f", blade))
gives: "/obj/sword#1(/room/hall#3, 0, 0) /obj/sword#1(0, 0, 0) ({ 0, 2 })\n"
--- /event.c
mixed answers(mixed a, mixed b) { if (a) { destruct(a); return a; } return 2; }

=== one_call_fails
# The error goes to the caller, and the other items have no turn.
code: SHOW(map(({ 7, 8, 9 }), "f", blade))
gives: "/obj/sword#1(7, 0, 0) /obj/sword#1(8, 0, 0) *ouch\n"
--- /event.c
mixed answers(mixed a, mixed b) { if (a == 8) raise_error("ouch"); return 1; }

=== bad_arguments
# An array, a text, and a live object; a name of one is none.
code: SHOW(filter(1, "f")) SHOW(map(({ 1 }), 1)) SHOW(map(({ 1 }), "f", gone)) SHOW(map(({ 1 }), "f", "/obj/sword")) SHOW(filter(([ 1: 2 ]), "f"))
gives: "*Bad argument 1 to filter\n*Bad argument 2 to map\n*Bad argument 3 to map\n*Bad argument 3 to map\n*Bad argument 1 to filter\n"
