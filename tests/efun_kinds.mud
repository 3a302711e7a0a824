# Kinds of arguments: each efun with each kind of value in each argument. Of several bad arguments the first is told, and one that is
# missing is none.
--- /obj/sword.c
--- /room/hall.c
--- /secure/master.c
// What a call of an efun comes to with an integer, a text, an array, a mapping, an object that is no clone, and one that ended, as x:
// its value, or the number of the argument that is bad. TAKES tells only whether an argument is bad.
#define EACH(f, e) for (i = 0; i < 6; i++) { x = kinds[i]; error = catch(value = e); write(told(f, error, sprintf("%O", value))); }
#define TAKES(f, e) for (i = 0; i < 6; i++) { x = kinds[i]; error = catch(value = e); write(told(f, error, "ok")); }
#define SHOW(e) error = catch(value = e); if (error) write(error); else printf("%O\n", value);
int i;
mixed *kinds;
mixed error, value, x;
object hall;
string told(string efun, mixed error, string value) {
  string bad;
  int n;
  if (!stringp(error)) return value + (i < 5 ? " | " : "\n");
  while (n++ < 9) {
    bad = "*Bad argument " + n + " to " + efun + "\n";
    if (error == bad) error = "bad " + n;
  }
  return error + (i < 5 ? " | " : "\n");
}
object connect() {
  object gone;
  hall = load_object("/room/hall");
  gone = clone_object("/obj/sword");
  kinds = ({ 2, "2b", ({ "2b", 2 }), ([ 2: "x" ]), hall, gone });
  destruct(gone);
  return this_object();
}
int logon() { @@ return 1; }
--- play
connect 1
end

=== of_any_value
# What is asked of a value: an object that ended is the integer 0. An integer that is not 0 has no size, and so an object.
code: EACH("clonep", clonep(x))
code: EACH("objectp", objectp(x))
code: EACH("intp", intp(x))
code: EACH("stringp", stringp(x))
code: EACH("pointerp", pointerp(x))
code: EACH("mappingp", mappingp(x))
code: EACH("to_int", to_int(x))
code: EACH("to_string", to_string(x))
code: EACH("sizeof", sizeof(x))
code: EACH("copy", copy(x))
gives: "0 | 0 | 0 | 0 | 0 | 0\n"
       "0 | 0 | 0 | 0 | 1 | 0\n"
       "1 | 0 | 0 | 0 | 0 | 1\n"
       "0 | 1 | 0 | 0 | 0 | 0\n"
       "0 | 0 | 1 | 0 | 0 | 0\n"
       "0 | 0 | 0 | 1 | 0 | 0\n"
       "2 | 2 | 0 | 0 | 0 | 0\n"
       "\"2\" | \"2b\" | \"<ARRAY>\" | \"<MAPPING>\" | \"/room/hall\" | \"0\"\n"
       "bad 1 | 2 | 2 | 1 | bad 1 | 0\n"
       "2 | \"2b\" | ({ \"2b\", 2 }) | ([ 2: \"x\" ]) | /room/hall | 0\n"

=== of_texts
# Efuns of texts.
code: EACH("strlen", strlen(x))
code: EACH("explode", explode(x, "b"))
code: EACH("explode", explode("a2ba", x))
code: EACH("implode", implode(x, "-"))
code: EACH("implode", implode(({ "a", "c" }), x))
code: EACH("lower_case", lower_case(x))
code: EACH("upper_case", upper_case(x))
code: EACH("capitalize", capitalize(x))
code: EACH("strstr", strstr(x, "b", 1))
code: EACH("strstr", strstr("a2b", x, 0))
code: EACH("strstr", strstr("bb2b", "b", x))
code: EACH("trim", trim(x))
code: EACH("sprintf", sprintf(x))
code: EACH("sprintf", sprintf("%O", x))
gives: "bad 1 | 2 | bad 1 | bad 1 | bad 1 | bad 1\n"
       "bad 1 | ({ \"2\", \"\" }) | bad 1 | bad 1 | bad 1 | bad 1\n"
       "bad 2 | ({ \"a\", \"a\" }) | bad 2 | bad 2 | bad 2 | bad 2\n"
       "bad 1 | bad 1 | \"2b\" | bad 1 | bad 1 | bad 1\n"
       "bad 2 | \"a2bc\" | bad 2 | bad 2 | bad 2 | bad 2\n"
       "bad 1 | \"2b\" | bad 1 | bad 1 | bad 1 | bad 1\n"
       "bad 1 | \"2B\" | bad 1 | bad 1 | bad 1 | bad 1\n"
       "bad 1 | \"2b\" | bad 1 | bad 1 | bad 1 | bad 1\n"
       "bad 1 | 1 | bad 1 | bad 1 | bad 1 | bad 1\n"
       "bad 2 | 1 | bad 2 | bad 2 | bad 2 | bad 2\n"
       "3 | bad 3 | bad 3 | bad 3 | bad 3 | 0\n"
       "bad 1 | \"2b\" | bad 1 | bad 1 | bad 1 | bad 1\n"
       "bad 1 | \"2b\" | bad 1 | bad 1 | bad 1 | bad 1\n"
       "\"2\" | \"\\\"2b\\\"\" | \"({ \\\"2b\\\", 2 })\" | \"([ 2: \\\"x\\\" ])\" | \"/room/hall\" | \"0\"\n"

=== of_arrays_and_mappings
# Efuns of arrays and mappings.
code: EACH("allocate", allocate(x))
code: EACH("member", member(x, 2))
code: EACH("member", member(({ "2b", 2, 0, hall }), x))
code: EACH("member", member(([ 2: 0, "2b": 0, hall: 0 ]), x))
code: EACH("member", member("2b\x02\x00", x))
code: EACH("m_indices", m_indices(x))
code: EACH("m_values", m_values(x))
code: EACH("mkmapping", mkmapping(x, ({ "v" })))
gives: "({ 0, 0 }) | bad 1 | bad 1 | bad 1 | bad 1 | ({ })\n"
       "bad 1 | -1 | 1 | 1 | bad 1 | bad 1\n"
       "1 | 0 | -1 | -1 | 3 | 2\n"
       "1 | 1 | 0 | 0 | 1 | 0\n"
       "2 | -1 | -1 | -1 | -1 | 3\n"
       "bad 1 | bad 1 | bad 1 | ({ 2 }) | bad 1 | bad 1\n"
       "bad 1 | bad 1 | bad 1 | ({ \"x\" }) | bad 1 | bad 1\n"
       "bad 1 | bad 1 | ([ \"2b\": \"v\" ]) | bad 1 | bad 1 | bad 1\n"

=== of_numbers
# Efuns of numbers, and the values of `mkmapping`.
code: EACH("mkmapping", mkmapping(({ "k", "l" }), x))
code: EACH("min", min(x, 1))
code: EACH("min", min(1, x))
code: EACH("max", max(x, 1))
code: EACH("max", max(1, x))
code: EACH("abs", abs(x))
gives: "bad 2 | bad 2 | ([ \"k\": \"2b\", \"l\": 2 ]) | bad 2 | bad 2 | bad 2\n"
       "1 | bad 1 | bad 1 | bad 1 | bad 1 | 0\n"
       "1 | bad 2 | bad 2 | bad 2 | bad 2 | 0\n"
       "2 | bad 1 | bad 1 | bad 1 | bad 1 | 1\n"
       "2 | bad 2 | bad 2 | bad 2 | bad 2 | 1\n"
       "2 | bad 1 | bad 1 | bad 1 | bad 1 | 0\n"

=== the_first_of_several
# The first of several bad arguments is told, and one that is missing is none.
code: SHOW(explode(1, 1))
code: SHOW(implode(({ }), 0))
code: SHOW(implode("a", 0))
code: SHOW(strstr("a", 1, "x"))
code: SHOW(strstr(1, 1, "x"))
code: SHOW(strstr("ab", "b"))
code: SHOW(mkmapping(0, 0))
code: SHOW(min("a", "b"))
code: SHOW(max(1, ({ })))
gives: "*Bad argument 1 to explode\n"
       "*Bad argument 2 to implode\n"
       "*Bad argument 1 to implode\n"
       "*Bad argument 2 to strstr\n"
       "*Bad argument 1 to strstr\n"
       "1\n"
       "*Bad argument 1 to mkmapping\n"
       "*Bad argument 1 to min\n"
       "*Bad argument 2 to max\n"

=== of_the_world
# Efuns that look at objects and the world. An integer and an object that ended are numbers, the latter 0.
code: TAKES("previous_object", previous_object(x))
code: TAKES("find_object", find_object(x))
code: TAKES("object_name", object_name(x))
code: TAKES("load_name", load_name(x))
code: TAKES("program_name", program_name(x))
code: TAKES("living", living(x))
code: TAKES("interactive", interactive(x))
code: TAKES("query_shadowing", query_shadowing(x))
code: TAKES("environment", environment(x))
code: TAKES("all_inventory", all_inventory(x))
code: TAKES("first_inventory", first_inventory(x))
code: TAKES("notify_fail", notify_fail(x))
code: TAKES("exec", exec(x, hall))
code: TAKES("exec", exec(hall, x))
code: TAKES("remove_interactive", remove_interactive(x))
code: TAKES("set_heart_beat", set_heart_beat(x))
code: TAKES("remove_call_out", remove_call_out(x))
code: TAKES("find_call_out", find_call_out(x))
code: TAKES("random", random(x))
code: TAKES("m_delete", m_delete(x, "ab"))
code: TAKES("m_delete", m_delete(([ "a": 1 ]), x))
gives: "ok | bad 1 | bad 1 | bad 1 | bad 1 | ok\n"
       "bad 1 | ok | bad 1 | bad 1 | bad 1 | bad 1\n"
       "bad 1 | bad 1 | bad 1 | bad 1 | ok | bad 1\n"
       "bad 1 | bad 1 | bad 1 | bad 1 | ok | bad 1\n"
       "bad 1 | bad 1 | bad 1 | bad 1 | ok | bad 1\n"
       "bad 1 | bad 1 | bad 1 | bad 1 | ok | bad 1\n"
       "bad 1 | bad 1 | bad 1 | bad 1 | ok | bad 1\n"
       "bad 1 | bad 1 | bad 1 | bad 1 | ok | bad 1\n"
       "bad 1 | bad 1 | bad 1 | bad 1 | ok | bad 1\n"
       "bad 1 | bad 1 | bad 1 | bad 1 | ok | bad 1\n"
       "bad 1 | bad 1 | bad 1 | bad 1 | ok | bad 1\n"
       "bad 1 | ok | bad 1 | bad 1 | bad 1 | bad 1\n"
       "bad 1 | bad 1 | bad 1 | bad 1 | ok | bad 1\n"
       "bad 2 | bad 2 | bad 2 | bad 2 | ok | bad 2\n"
       "bad 1 | bad 1 | bad 1 | bad 1 | ok | bad 1\n"
       "ok | bad 1 | bad 1 | bad 1 | bad 1 | ok\n"
       "bad 1 | ok | bad 1 | bad 1 | bad 1 | bad 1\n"
       "bad 1 | ok | bad 1 | bad 1 | bad 1 | bad 1\n"
       "ok | bad 1 | bad 1 | bad 1 | bad 1 | ok\n"
       "bad 1 | bad 1 | bad 1 | ok | bad 1 | bad 1\n"
       "ok | ok | ok | ok | ok | ok\n"

=== of_errors
# `throw` takes any value, and a text alone is an error; what comes of it is caught.
code: EACH("raise_error", raise_error(x))
gives: "bad 1 | *2b\n | bad 1 | bad 1 | bad 1 | bad 1\n"

=== any_value_is_thrown
# `throw` takes any value; of an object that ended 0 is caught.
code: for (i = 0; i < 6; i++) { x = kinds[i]; error = catch(throw(x)); printf("%O | ", error); }
gives: "2 | \"2b\" | ({ \"2b\", 2 }) | ([ 2: \"x\" ]) | /room/hall | 0 | "
