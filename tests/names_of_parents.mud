# Names that a parent shows its child, with their types. A row is the rest of a file that inherits /std/room, with
# strong_types; `hall` is a simul efun too, which means nothing where a parent has it.
words: check --simul /simul.c
--- /std/room.c
int hall(int a) { return a; }
int late(int a) { return a; }
private int hidden(int a) { return a; }
int soon(int a);
varargs int loose(int a, int b) { return a; }
int size;
private int secret;
--- /simul.c
void hall() { }
--- /t.c
inherit "/std/room"; @@
#pragma strong_types

=== function
# A function of the parent has its count and its types.
code: void f() { hall(1);
code: hall();
code: hall("x"); }
--- written
/t.c line 2: wrong number of arguments
/t.c line 3: wrong type
3 files, 2 faults

=== function_by_super
# Also where it is called by `::`.
code: void f() { ::hall(1);
code: ::hall();
code: ::hall("x"); }
--- written
/t.c line 2: wrong number of arguments
/t.c line 3: wrong type
3 files, 2 faults

=== value
# The value of a call has the type of the function.
code: void f() { int a = hall(1);
code: string b = hall(1); }
--- written
/t.c line 2: wrong type
3 files, 1 faults

=== value_by_super
# Also by `::`.
code: void f() { int a = ::hall(1);
code: string b = ::hall(1); }
--- written
/t.c line 2: wrong type
3 files, 1 faults

=== paths
# A path is meant whole, or by what stands behind a slash.
code: void f() { "room"::hall(1);
code: "std/room"::hall(1);
code: "/std/room"::hall(1);
code: "room"::hall(); }
--- written
/t.c line 4: wrong number of arguments
3 files, 1 faults

=== other_paths
# No other part of a path means the parent.
code: void f() { "oom"::hall(1);
code: "std"::hall(1);
code: "/room"::hall(1);
code: "a/std/room"::hall(1); }
--- written
/t.c line 1: unknown function
/t.c line 2: unknown function
/t.c line 3: unknown function
/t.c line 4: unknown function
3 files, 4 faults

=== prototype
# A prototype of the parent may be called.
code: void f() { soon(1);
code: soon();
code: ::soon(1);
code: "room"::soon(1); }
--- written
/t.c line 2: wrong number of arguments
3 files, 1 faults

=== private_function
# What is private is not seen.
code: void f() { hidden(1);
code: ::hidden(1);
code: "room"::hidden(1); }
--- written
/t.c line 1: unknown function
/t.c line 2: unknown function
/t.c line 3: unknown function
3 files, 3 faults

=== private_function_and_own_one
# The file may have a function of that name, which `::` does not mean.
code: void hidden() {} void f() { hidden();
code: ::hidden(1); }
--- written
/t.c line 2: unknown function
3 files, 1 faults

=== varargs
# Too few arguments are no fault of a function that is `varargs`; too many are.
code: void f() { loose(); loose(1); loose(1, 2);
code: loose(1, 2, 3);
code: loose("x"); }
--- written
/t.c line 2: wrong number of arguments
/t.c line 3: wrong type
3 files, 2 faults

=== own_function
# The function of the file goes before that of the parent.
code: void hall(int a, int b) {}
code: void f() { hall(1);
code: hall(1, 2);
code: ::hall(1); }
--- written
/t.c line 2: wrong number of arguments
3 files, 1 faults

=== prototype_of_the_file
# The function of the parent goes before the prototype of the file.
code: void hall(int a, int b);
code: void f() { hall(1);
code: hall(1, 2); }
--- written
/t.c line 3: wrong number of arguments
3 files, 1 faults

=== prototypes_of_both
# The prototype of the file goes before that of the parent.
code: void soon(int a, int b);
code: void f() { soon(1);
code: soon(1, 2);
code: ::soon(1); }
--- written
/t.c line 2: wrong number of arguments
3 files, 1 faults

=== efun
# An efun is no function of the parent, so that `::` does not mean it.
code: void f() { write(1);
code: ::write(1);
code: "room"::write(1); }
--- written
/t.c line 2: unknown function
/t.c line 3: unknown function
3 files, 2 faults

=== variable
# A variable of the parent has its type.
code: void f() { size = 1;
code: size = "x"; }
--- written
/t.c line 2: wrong type
3 files, 1 faults

=== private_variable
# What is private is not seen.
code: void f() { secret; }
--- written
/t.c line 1: unknown name
3 files, 1 faults

=== variable_again
# A variable of the parent may not be declared again; one that is not seen may.
code: string a,
code: size; int secret;
--- written
/t.c line 2: name used twice
3 files, 1 faults

=== variable_hidden
# A local hides it.
code: void f() { string size;
code: size = "x";
code: size = 1; }
--- written
/t.c line 3: wrong type
3 files, 1 faults

=== variable_hidden_by_a_parameter
# So does a parameter.
code: void f(string size) {
code: size = "x";
code: size = 1; }
--- written
/t.c line 3: wrong type
3 files, 1 faults

=== variables_of_a_foreach
# A `foreach` goes with a variable of the parent, and with none that is not seen.
code: void f() { foreach (size : ({ 1 })) ;
code: foreach (secret : ({ 1 })) ; }
--- written
/t.c line 2: unknown name
3 files, 1 faults
