# Two faults at one token, in the order of the kinds: unknown names, unknown functions, counts, types that do not fit,
# types that are missing, names used twice, returns. A row is one source with strict_types, whose pragma stands in its
# last line.
words: check
--- /t.c
@@
#pragma strict_types

=== name_before_type
# A misfit of a statement stands behind what its first token has of its own.
code: void f() { int a;
code: b[a = ""]; }
--- written
/t.c line 2: unknown name
/t.c line 2: wrong type
1 files, 2 faults

=== function_before_type
# An unknown function.
code: void f() { int a;
code: g(a = ""); }
--- written
/t.c line 2: unknown function
/t.c line 2: wrong type
1 files, 2 faults

=== count_before_type
# A count of an efun.
code: void f() { int a;
code: strlen(1, a = ""); }
--- written
/t.c line 2: wrong number of arguments
/t.c line 2: wrong type
1 files, 2 faults

=== name_before_type_before_others
# And before what the other tokens have.
code: void f() { int a;
code: b[a = ""] + c; d; }
--- written
/t.c line 2: unknown name
/t.c line 2: wrong type
/t.c line 2: unknown name
/t.c line 2: unknown name
1 files, 4 faults

=== count_before_argument
# A count of a function, and an argument of it.
code: void g(int a) {} void f() {
code: g("", 1); }
--- written
/t.c line 2: wrong number of arguments
/t.c line 2: wrong type
1 files, 2 faults

=== count_before_arguments
# And two arguments.
code: void g(int a, int b, int c) {} void f() {
code: g("", ""); }
--- written
/t.c line 2: wrong number of arguments
/t.c line 2: wrong type
/t.c line 2: wrong type
1 files, 3 faults

=== type_before_double_local
# A type and a second local.
code: void f() { int a; string
code: a = 1; }
--- written
/t.c line 2: wrong type
/t.c line 2: name used twice
1 files, 2 faults

=== type_before_double_global
# A type and a second global.
code: int a; string
code: a = 1;
--- written
/t.c line 2: wrong type
/t.c line 2: name used twice
1 files, 2 faults

=== assignment_in_an_initialiser
# An assignment in an initialiser is mixed, so that only what is assigned in it does not fit.
code: int a; string
code: a = (a = 1);
--- written
/t.c line 2: wrong type
/t.c line 2: name used twice
1 files, 2 faults

=== missing_before_double_function
# A missing type and a second function.
code: void f() {}
code: f() {}
--- written
/t.c line 2: missing type
/t.c line 2: name used twice
1 files, 2 faults

=== missing_before_double_parameter
# A missing type and a second parameter.
code: void f(int a,
code: a) {}
--- written
/t.c line 2: missing type
/t.c line 2: name used twice
1 files, 2 faults

=== type_before_return
# An assignment and a return.
code: void f() { int a;
code: return a = ""; }
--- written
/t.c line 2: wrong type
/t.c line 2: wrong return
1 files, 2 faults

=== prototype_and_its_parameters
# The missing types of prototypes, in the order of the tokens.
code: f();
code: void g(a,
code: int b,
code: c);
--- written
/t.c line 1: missing type
/t.c line 2: missing type
/t.c line 4: missing type
1 files, 3 faults

=== two_prototypes
# Two prototypes and a function of one name are no fault.
code: void f(); void f(); void f() {}
--- written
1 files, 0 faults

=== one_name_for_all
# A global, a function, a parameter and a local may have one name.
code: int a; void a() {} void f(int f) { int f; }
--- written
1 files, 0 faults

=== missing_type_before_unknown_function
# A missing type of a function, and a fault of its body in the same line.
code: f() { g();
code: return 1; }
--- written
/t.c line 1: missing type
/t.c line 1: unknown function
1 files, 2 faults
