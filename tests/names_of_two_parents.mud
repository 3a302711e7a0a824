# Names that two parents show their child. A row is the rest of a file that inherits /std/room and then /obj/room, with
# strong_types.
words: check
--- /std/room.c
int hall(int a) { return a; }
int late(int a) { return a; }
private int hidden(int a) { return a; }
int soon(int a);
varargs int loose(int a, int b) { return a; }
int size;
private int secret;
--- /obj/room.c
int hall(int a, int b) { return a; }
int late(int a, int b);
int soon(int a, int b);
int secret;
private int size;
--- /t.c
inherit "/std/room"; inherit "/obj/room"; @@
#pragma strong_types

=== functions_of_both
# The function of the last parent goes before that of the other.
code: void f() { hall(1, 2);
code: hall(1);
code: ::hall(1, 2);
code: ::hall(1); }
--- written
/t.c line 2: wrong number of arguments
/t.c line 4: wrong number of arguments
3 files, 2 faults

=== function_before_prototype
# A function of any parent goes before a prototype of any.
code: void f() { late(1);
code: late(1, 2);
code: ::late(1);
code: ::late(1, 2); }
--- written
/t.c line 2: wrong number of arguments
/t.c line 4: wrong number of arguments
3 files, 2 faults

=== prototypes_of_both
# The prototype of the last parent goes before that of the other.
code: void f() { soon(1);
code: soon(1, 2);
code: ::soon(1); }
--- written
/t.c line 1: wrong number of arguments
/t.c line 3: wrong number of arguments
3 files, 2 faults

=== function_of_the_first
# A function of the first parent alone.
code: void f() { loose();
code: ::loose(1, 2, 3); }
--- written
/t.c line 2: wrong number of arguments
3 files, 1 faults

=== ambiguous
# Which of two parents is meant is no matter of types: their counts, their types and their names are not looked at.
code: void f() { "room"::hall(1); "room"::hall(1, 2, 3); "room"::nothing(); }
--- written
/t.c line 1: ambiguous parent
3 files, 1 faults

=== value_of_an_ambiguous
# Nor is the value of the call; the fault is one of inheritance.
code: void f() { string a = "room"::hall(1); }
--- written
/t.c line 1: ambiguous parent
3 files, 1 faults

=== longer_path
# A longer path means one of them.
code: void f() { "std/room"::hall(1);
code: "std/room"::hall(1, 2); }
--- written
/t.c line 2: wrong number of arguments
3 files, 1 faults

=== longer_path_of_the_last
# Or the other.
code: void f() { "obj/room"::hall(1);
code: "obj/room"::hall(1, 2);
code: "obj/room"::loose(); }
--- written
/t.c line 1: wrong number of arguments
/t.c line 3: unknown function
3 files, 2 faults

=== variables_of_both
# What one parent hides the other may show.
code: int size;
code: int secret;
--- written
/t.c line 1: name used twice
/t.c line 2: name used twice
3 files, 2 faults
