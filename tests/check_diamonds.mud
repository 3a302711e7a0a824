# Checks of four files of which one, /a.c, is inherited from two sides, with equal names at each level.
words: check

=== each_side_has_its_names
# Each has its own variable, and the functions that it names are those of its side.
--- /a.c
private int x;
int f() { x = 1; return x; }
int g() { return f(); }
--- /b.c
inherit "/a";
private string x;
int f() { x = "b"; return ::f(); }
int h(string s) { return f() + g(); }
--- /c.c
inherit "/a";
private object x;
int f() { x = this_object(); return ::f(); }
int h(int i) { return g(); }
--- /d.c
#pragma strict_types
inherit "/b";
inherit "/c";
private mapping x;
int f() { x = ([ ]); return "b"::f() + "/c"::f(); }
int k() { return h(1) + "b"::h("") + g(); }
--- written
4 files, 0 faults

=== later_inherit_counts_for_functions
# Of a name that both sides have, the later `inherit` counts.
--- /a.c
private int x;
int f() { x = 1; return x; }
int g() { return f(); }
--- /b.c
inherit "/a";
private string x;
int f() { x = "b"; return ::f(); }
int h(string s) { return f() + g(); }
--- /c.c
inherit "/a";
private object x;
int f() { x = this_object(); return ::f(); }
int h(int i) { return g(); }
--- /d.c
#pragma strong_types
inherit "/c";
inherit "/b";
int k() {
  h("");
  "c"::h(1);
  return h(1);
}
--- written
/d.c line 7: wrong type
4 files, 1 faults

=== later_inherit_counts_for_variables
# So it is with variables that are not private.
--- /a.c
private int x;
int f() { x = 1; return x; }
int g() { return f(); }
--- /b.c
inherit "/a";
string y;
--- /c.c
inherit "/a";
int y;
--- /d.c
#pragma strong_types
inherit "/b";
inherit "/c";
void k() {
  y = 1;
  y = "";
}
--- written
/d.c line 6: wrong type
4 files, 1 faults

=== later_inherit_counts_the_other_way
# The same with the other order of the `inherit`s.
--- /a.c
private int x;
int f() { x = 1; return x; }
int g() { return f(); }
--- /b.c
inherit "/a";
string y;
--- /c.c
inherit "/a";
int y;
--- /d.c
#pragma strong_types
inherit "/c";
inherit "/b";
void k() {
  y = 1;
  y = "";
}
--- written
/d.c line 5: wrong type
4 files, 1 faults

=== variable_declared_again
# A variable that is seen may not be declared again. The side that does it has the fault, and the file below has none.
--- /a.c
int x;
--- /b.c
inherit "/a";
int x;
--- /c.c
inherit "/a";
int f() { return x; }
--- /d.c
inherit "/c";
inherit "/b";
int x;
int f() { return y; }
--- written
/b.c line 2: name used twice
4 files, 1 faults

=== fault_of_the_top_is_told_once
# A fault of the file that is inherited from two sides is told once.
--- /a.c
int f() { return y; }
--- /b.c
inherit "/a";
private string x;
int f() { x = "b"; return ::f(); }
int h(string s) { return f() + g(); }
--- /c.c
inherit "/a";
private object x;
int f() { x = this_object(); return ::f(); }
int h(int i) { return g(); }
--- /d.c
inherit "/b";
inherit "/c";
int k() { return y; }
--- written
/a.c line 1: unknown name
4 files, 1 faults
