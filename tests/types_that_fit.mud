# Which values fit which types with strong_types. A row is one source; its pragma stands in the last line and counts for
# the whole file.
words: check
--- /t.c
@@
#pragma strong_types

=== literal_0
# The literal 0 fits each type, in parentheses too; an int does not.
code: string a = 0; int *b = (0); mapping c = ((0));
code: string d = (1);
code: string e = -0; string f = 00;
--- written
/t.c line 2: wrong type
/t.c line 3: wrong type
1 files, 2 faults

=== no_type
# What has no type is mixed, and fits each type.
code: g(a) { string b = a; int *c = g(1); }
--- written
1 files, 0 faults

=== mixed
# What is mixed fits each type.
code: mixed a; string b = a; mapping c = a; int *d = a;
--- written
1 files, 0 faults

=== arrays
# Arrays fit where their items fit.
code: string *a; mixed *b = a; string *c = b;
code: int *d = a;
code: string e = a;
code: string **f = a;
--- written
/t.c line 2: wrong type
/t.c line 3: wrong type
/t.c line 4: wrong type
1 files, 3 faults

=== arrays_of_mixed
# Items that are mixed fit arrays, and no int.
code: mixed *a; int **b = a;
code: int c = a;
--- written
/t.c line 2: wrong type
1 files, 1 faults

=== array_literals
# An array literal is an array of mixed.
code: int *a = ({ 1 }), b = ({ }), *c = ({ "x" });
--- written
/t.c line 1: wrong type
1 files, 1 faults

=== mapping_literals
# A mapping literal is a mapping.
code: mapping a = ([ ]);
code: int *b = ([ ]);
--- written
/t.c line 2: wrong type
1 files, 1 faults

=== status
# `status` is `int`, in arrays too.
code: status *a; int *b = a; status c = 1;
code: status d = "x";
--- written
/t.c line 2: wrong type
1 files, 1 faults

=== operators
# Comparisons and `!` give an int, other operators anything.
code: string a = 1 + 2;
code: string b = 1 == 2;
code: string c = !1;
code: string d = 1 && 2; string e = 1 ? 2 : 3;
--- written
/t.c line 2: wrong type
/t.c line 3: wrong type
1 files, 2 faults

=== casts
# A cast gives its type.
code: int a = (string) 1;
code: string b = (string) 1;
--- written
/t.c line 1: wrong type
1 files, 1 faults

=== efuns
# Efuns that ask what a value is give an int, others anything.
code: string a = intp(1);
code: string b = strlen("x");
--- written
/t.c line 1: wrong type
1 files, 1 faults

=== efuns_named_as_such
# So do those that are named by `efun::`.
code: string a = efun::objectp(1);
code: string b = efun::time();
--- written
/t.c line 1: wrong type
1 files, 1 faults

=== values_of_functions
# A call gives the type of its function, also of a prototype.
code: int g() { return 1; } string a = g();
code: int *g2(); int *b = g2();
--- written
/t.c line 1: wrong type
1 files, 1 faults

=== returns
# A return fits as an argument does.
code: int f() { return "x"; }
code: int g() { return 0; }
code: string h() { return 0; }
code: int *i() { return ({ }); }
--- written
/t.c line 1: wrong return
1 files, 1 faults

=== returns_of_nothing
# `void` functions return nothing, others something.
code: void f() { return; }
code: void g() { return 0; }
code: mixed h() { return; }
--- written
/t.c line 2: wrong return
/t.c line 3: wrong return
1 files, 2 faults

=== assignments
# `+=` has no types; `=` has, wherever it stands.
code: void f() { int a; a += "x";
code: if (a = "x") ;
code: return a = "x"; }
--- written
/t.c line 2: wrong type
/t.c line 3: wrong type
/t.c line 3: wrong return
1 files, 3 faults

=== count_before_types
# A wrong number of arguments is told before arguments that do not fit.
code: void g(int a) {} void f() { g("x", 1); }
--- written
/t.c line 1: wrong number of arguments
/t.c line 1: wrong type
1 files, 2 faults

=== two_arguments
# Each argument that does not fit is a fault.
code: void g(int a, int b) {} void f() { g("x", "y"); }
--- written
/t.c line 1: wrong type
/t.c line 1: wrong type
1 files, 2 faults

=== calls_in_arguments
# The faults of a call stand at its name, before those of its arguments.
code: void g() {} void f() { g(
code: a,
code: h()); }
--- written
/t.c line 1: wrong number of arguments
/t.c line 2: unknown name
/t.c line 3: unknown function
1 files, 3 faults

=== first_token_of_a_statement
# A misfit stands at the first token of its statement.
code: void f() { int a;
code: if (b)
code: a
code: = "x";
code: else ;
code: while (b
code: && (a = "x")) ; }
--- written
/t.c line 2: unknown name
/t.c line 3: wrong type
/t.c line 6: wrong type
/t.c line 6: unknown name
1 files, 4 faults

=== do
# That of a `do` is the word, and its test stands behind its body.
code: void f() { int a; do
code: b;
code: while (a = "x"); }
--- written
/t.c line 1: wrong type
/t.c line 2: unknown name
1 files, 2 faults

=== globals
# The misfits of a global stand at its name; it sees globals behind it.
code: int a =
code: b = "x";
code: int b;
code: int c =
code: d;
--- written
/t.c line 1: wrong type
/t.c line 5: unknown name
1 files, 2 faults

=== sscanf
# `sscanf` is a form of its own, with any number of places.
code: void f() { int a; sscanf("1", ""); sscanf("1", "%d%d%d", a, a, a);
code: sscanf(b, "%d",
code: a, c); }
--- written
/t.c line 2: unknown name
/t.c line 3: unknown name
1 files, 2 faults
