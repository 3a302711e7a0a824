# Saved text: how values of variables are spelled. A row is the `create` of an object with the variables v and w, whose
# saved text the master writes, or the error with which saving ends.
--- /t.c
mixed v, w;
void create() { @@ }
string saved() {
  mixed e = catch(save_object("/t"));
  return e ? e : read_file("/t.o");
}
--- /x.c
int x;
--- /secure/master.c
int valid_read() { return 1; }
int valid_write() { return 1; }
object connect() { return this_object(); }
int logon() { write(load_object("/t")->saved()); return 1; }
--- play
connect 1
end

=== numbers
# A negative one, and one that was never assigned.
code: v = -12;
gives: "#2:0\nv -12\nw 0\n"

=== extremes
# The least number and the greatest.
code: v = -9223372036854775807 - 1; w = 9223372036854775807;
gives: "#2:0\nv -9223372036854775808\nw 9223372036854775807\n"

=== objects
# An object is saved as 0, whether it is live or not.
code: v = this_object(); w = load_object("/x"); destruct(w);
gives: "#2:0\nv 0\nw 0\n"

=== texts
# Line feeds, carriage returns, tabs, backslashes and double quotes are spelled with a backslash, and no other letters.
code: v = "a\n\r\t\\\"é'"; w = "";
gives: "#2:0\nv \"a\\n\\r\\t\\\\\\\"é'\"\nw \"\"\n"

=== empty
# An array and a mapping with nothing in them.
code: v = ({ }); w = ([ ]);
gives: "#2:0\nv ({})\nw ([])\n"

=== arrays_and_mappings
# A comma stands behind each item and each pair, which stand in their order.
code: v = ({ 1, "a", ({ 2 }) }); w = ([ "b": 1, 2: "c", "a": ({ }) ]);
gives: "#2:0\nv ({1,\"a\",({2,}),})\nw ([\"b\":1,2:\"c\",\"a\":({}),])\n"

=== objects_in_mappings
# A key that is a live object is 0, and a pair whose key is a destructed object is not there.
code: object d = load_object("/x"); v = ([ 1: "a", d: 7, this_object(): 8 ]); w = ({ d, this_object() }); destruct(d);
gives: "#2:0\nv ([1:\"a\",0:8,])\nw ({0,0,})\n"

=== shared_array
# An array that occurs twice is spelled at its first place, with a number.
code: mixed x = ({ this_object() }); v = ({ x, x });
gives: "#2:0\nv ({<1>=({0,}),<1>,})\nw 0\n"

=== equal_arrays
# Two arrays that are equal are two.
code: v = ({ ({ 0 }), ({ 0 }) });
gives: "#2:0\nv ({({0,}),({0,}),})\nw 0\n"

=== shared_by_variables
# The numbers go over the whole text.
code: v = ({ }); w = ({ v, ([ ]), v });
gives: "#2:0\nv <1>=({})\nw ({<1>,([]),<1>,})\n"

=== shared_mapping
# Mappings have numbers of the same row, in the order of their first places; as a key too.
code: mixed m = ([ ]), a = ({ }); v = ({ m, a, m }); w = ([ a: m ]);
gives: "#2:0\nv ({<1>=([]),<2>=({}),<1>,})\nw ([<2>:<1>,])\n"

=== array_in_itself
# An array inside itself has a number too.
code: v = ({ 0 }); v[0] = v;
gives: "#2:0\nv <1>=({<1>,})\nw 0\n"

=== array_in_itself_in_others
# The first number is that of the array that is met first, not of the one that ends first.
code: mixed z = ({ 0 }); z[0] = z; mixed i = ({ z, 5 }); v = ({ i, z, i });
gives: "#2:0\nv ({<1>=({<2>=({<2>,}),5,}),<2>,<1>,})\nw 0\n"

=== mapping_in_itself
# A mapping that holds itself, and an array that holds it, which is a key of it.
code: v = ([ ]); mixed a = ({ v }); v[1] = v; v["a\n"] = a; v[a] = ([ ]);
gives: "#2:0\nv <1>=([1:<1>,\"a\\n\":<2>=({<1>,}),<2>:([]),])\nw 0\n"

=== no_variables
# The first line alone. What is nosave or static is no variable to save.
code: v = 1;
--- /secure/master.c
int valid_read() { return 1; }
int valid_write() { return 1; }
nosave int n = 1;
static int s = 2;
object connect() { return this_object(); }
int logon() { save_object("/n"); write(read_file("/n.o")); return 1; }
--- written
to 1: "#2:0\n"
end

=== deepest
# 100 levels of arrays in one another are saved.
code: v = 0; for (int i = 0; i < 100; i++) v = ({ v });
gives: "#2:0\nv "
       "({({({({({({({({({({({({({({({({({({({({({({({({({({({({({({({({({({({({({({({({({({({({({({({({({({({({({({({({({({({({({({({({({({({({({({({({({({({({({({({({({({({({({({({({({({({({({({({({({({({({"
       "0"
       ",}),}),}),}),}),}),}),}),}),}),}),}),}),}),}),}),}),}),}),}),}),}),}),}),}),}),}),}),}),}),}),}),}),}),}),}),}),}),}),}),}),}),}),}),}),}),}),}),}),}),}),}),}),}),}),}),}),}),}),}),}),}),}),}),}),}),}),}),}),}),}),}),}),}),}),}),}),}),}),}),}),}),}),}),}),}),}),}),}),}),}),}),}),}),}),}),}),}),}),})"
       "\nw 0\n"

=== too_deep
# 101 are not, and nothing is written.
code: v = 0; for (int i = 0; i < 101; i++) v = ({ v });
gives: "*Too deep nesting\n"

=== deep_in_a_mapping
# Levels count in mappings too, in keys and in values.
code: v = 0; for (int i = 0; i < 50; i++) { v = ([ v: 0 ]); v = ([ 0: v ]); } w = ({ v }); v = 0;
gives: "*Too deep nesting\n"
