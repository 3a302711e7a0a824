# Each kind of fault of types, in each mode in which it can come. A row is one source, which is checked with weak_types
# (which is there at first), with strong_types and with strict_types: the pragma counts for the whole file and stands in
# its last line, so that the lines of the source are those of the row.
# Where a row has a /near.c, that is the nearest source that has no fault, in the mode that has the most faults.
words: check
--- /weak.c
@@
--- /strong.c
@@
#pragma strong_types
--- /strict.c
@@
#pragma strict_types

=== unknown_name_as_a_statement
# In each mode: the nearest has the name as a parameter.
code: void f() {
code: a; }
--- /near.c
void f(int a) {
a; }
#pragma strict_types
--- written
/strict.c line 2: unknown name
/strong.c line 2: unknown name
/weak.c line 2: unknown name
4 files, 3 faults

=== unknown_name_assigned
# In each mode: an assignment to a name that means no variable; the nearest has a global.
code: void f() {
code: a = 1; }
--- /near.c
int a; void f() {
a = 1; }
#pragma strict_types
--- written
/strict.c line 2: unknown name
/strong.c line 2: unknown name
/weak.c line 2: unknown name
4 files, 3 faults

=== unknown_names_stepped
# In each mode: `++` and `--` of names that mean no variable: two faults in one line.
code: void f() {
code: a++; --b; }
--- /near.c
void f() { int a, b;
a++; --b; }
#pragma strict_types
--- written
/strict.c line 2: unknown name
/strict.c line 2: unknown name
/strong.c line 2: unknown name
/strong.c line 2: unknown name
/weak.c line 2: unknown name
/weak.c line 2: unknown name
4 files, 6 faults

=== unknown_parameter_of_another_function
# In each mode: a parameter is seen in its own function alone.
code: void f(int a) {}
code: void g() { a; }
--- /near.c
void f(int a) {}
void g(int a) { a; }
#pragma strict_types
--- written
/strict.c line 2: unknown name
/strong.c line 2: unknown name
/weak.c line 2: unknown name
4 files, 3 faults

=== unknown_name_in_a_global
# In each mode: in the initialiser of a global; a global is seen before its declaration too.
code: int a =
code: b;
--- /near.c
int a =
b; int b;
#pragma strict_types
--- written
/strict.c line 2: unknown name
/strong.c line 2: unknown name
/weak.c line 2: unknown name
4 files, 3 faults

=== unknown_name_in_a_foreach
# In each mode: a name without a type in a `foreach` has to mean a variable.
code: void f() { int *x; foreach (int a,
code: b : x) ; }
--- /near.c
void f() { int *x; foreach (int a,
int b : x) ; }
#pragma strict_types
--- written
/strict.c line 2: unknown name
/strong.c line 2: unknown name
/weak.c line 2: unknown name
4 files, 3 faults

=== unknown_local_of_a_do_block
# In each mode: a local of the block of a `do` is not seen in its test; one that is the body itself is.
code: void f() { do { int a; }
code: while (a); }
--- /near.c
void f() { do int a;
while (a); }
#pragma strict_types
--- written
/strict.c line 2: unknown name
/strong.c line 2: unknown name
/weak.c line 2: unknown name
4 files, 3 faults

=== unknown_local_of_a_switch
# In each mode: a local of a `switch` is not seen behind it, but behind the label of another case.
code: void f() { switch (1) { case 1: int a; }
code: a; }
--- /near.c
void f() { switch (1) { case 1: int a; case 2:
a; } }
#pragma strict_types
--- written
/strict.c line 2: unknown name
/strong.c line 2: unknown name
/weak.c line 2: unknown name
4 files, 3 faults

=== unknown_name_in_sscanf
# In each mode: a place of `sscanf` that means no variable.
code: void f() { sscanf("", "%d",
code: a); }
--- /near.c
void f() { int a; sscanf("", "%d",
a); }
#pragma strict_types
--- written
/strict.c line 2: unknown name
/strong.c line 2: unknown name
/weak.c line 2: unknown name
4 files, 3 faults

=== unknown_function
# In each mode: a call of a name that means no function; the nearest has the function behind the call.
code: void f() {
code: g(); }
--- /near.c
void f() {
g(); } void g() {}
#pragma strict_types
--- written
/strict.c line 2: unknown function
/strong.c line 2: unknown function
/weak.c line 2: unknown function
4 files, 3 faults

=== unknown_function_variable_called
# In each mode: a variable is no function.
code: int g; void f() {
code: g(); }
--- /near.c
int g; void f() {
g; }
#pragma strict_types
--- written
/strict.c line 2: unknown function
/strong.c line 2: unknown function
/weak.c line 2: unknown function
4 files, 3 faults

=== unknown_function_efun_of_an_own_function
# In each mode: `efun::` means efuns alone.
code: void g() {} void f() {
code: efun::g(); }
--- /near.c
void g() {} void f() {
efun::time(); }
#pragma strict_types
--- written
/strict.c line 2: unknown function
/strong.c line 2: unknown function
/weak.c line 2: unknown function
4 files, 3 faults

=== unknown_function_super_without_parents
# In each mode: `::` means functions of parents alone.
code: void f() {
code: ::f(); }
--- /near.c
void f() {
f(); }
#pragma strict_types
--- written
/strict.c line 2: unknown function
/strong.c line 2: unknown function
/weak.c line 2: unknown function
4 files, 3 faults

=== unknown_function_parent_that_is_none
# In each mode: a parent that is not there; the nearest calls an object of that name.
code: void f() {
code: "p"::f(); }
--- /near.c
void f() {
"p"->f(); }
#pragma strict_types
--- written
/strict.c line 2: unknown function
/strong.c line 2: unknown function
/weak.c line 2: unknown function
4 files, 3 faults

=== count_too_few_for_an_efun
# In each mode: too few arguments of an efun.
code: void f() {
code: strlen(); }
--- /near.c
void f() {
strlen(""); }
#pragma strict_types
--- written
/strict.c line 2: wrong number of arguments
/strong.c line 2: wrong number of arguments
/weak.c line 2: wrong number of arguments
4 files, 3 faults

=== count_too_many_for_an_efun
# In each mode: too many arguments of an efun that is named by `efun::`.
code: void f() {
code: efun::time(1); }
--- /near.c
void f() {
efun::time(); }
#pragma strict_types
--- written
/strict.c line 2: wrong number of arguments
/strong.c line 2: wrong number of arguments
/weak.c line 2: wrong number of arguments
4 files, 3 faults

=== double_two_functions
# In each mode: two functions with bodies and one name; a prototype and a function are one.
code: void f() {}
code: void f() {}
--- /near.c
void f();
void f() {}
#pragma strict_types
--- written
/strict.c line 2: name used twice
/strong.c line 2: name used twice
/weak.c line 2: name used twice
4 files, 3 faults

=== double_two_globals_in_one_declaration
# In each mode: two globals of one name; a function may have the name of a variable.
code: int a,
code: a;
--- /near.c
int a;
void a() {}
#pragma strict_types
--- written
/strict.c line 2: name used twice
/strong.c line 2: name used twice
/weak.c line 2: name used twice
4 files, 3 faults

=== double_two_globals_in_two_declarations
# In each mode: the fault stands at the second name.
code: int a;
code: int b,
code: a;
--- /near.c
int a;
int b,
c;
#pragma strict_types
--- written
/strict.c line 3: name used twice
/strong.c line 3: name used twice
/weak.c line 3: name used twice
4 files, 3 faults

=== double_two_parameters
# In each mode: two parameters of one name.
code: void f(int a,
code: int a) {}
--- /near.c
void f(int a,
int b) {}
#pragma strict_types
--- written
/strict.c line 2: name used twice
/strong.c line 2: name used twice
/weak.c line 2: name used twice
4 files, 3 faults

=== double_two_parameters_of_a_prototype
# In each mode: of a prototype too.
code: void f(int a,
code: int a);
--- /near.c
void f(int a,
int b);
#pragma strict_types
--- written
/strict.c line 2: name used twice
/strong.c line 2: name used twice
/weak.c line 2: name used twice
4 files, 3 faults

=== double_two_locals
# In each mode: two locals in one block; a block in it may have the name again.
code: void f() { int a;
code: int a; }
--- /near.c
void f() { int a; {
int a; } }
#pragma strict_types
--- written
/strict.c line 2: name used twice
/strong.c line 2: name used twice
/weak.c line 2: name used twice
4 files, 3 faults

=== double_local_of_a_branch
# In each mode: a declaration that is a branch is one of the block round it.
code: void f() { if (1) int a;
code: int a; }
--- /near.c
void f() { if (1) { int a; }
int a; }
#pragma strict_types
--- written
/strict.c line 2: name used twice
/strong.c line 2: name used twice
/weak.c line 2: name used twice
4 files, 3 faults

=== double_local_of_a_for
# In each mode: the body of a `for` that is a declaration is in the block of the variables of the loop.
code: void f() { for (int a;;)
code: int a; }
--- /near.c
void f() { for (int a;;) {
int a; } }
#pragma strict_types
--- written
/strict.c line 2: name used twice
/strong.c line 2: name used twice
/weak.c line 2: name used twice
4 files, 3 faults

=== double_local_of_a_foreach
# In each mode: so it is of a `foreach`.
code: void f() { foreach (int a : ({ }))
code: int a; }
--- /near.c
void f() { int a; foreach (int a : ({ }))
; }
#pragma strict_types
--- written
/strict.c line 2: name used twice
/strong.c line 2: name used twice
/weak.c line 2: name used twice
4 files, 3 faults

=== double_locals_of_two_cases
# In each mode: the cases of a `switch` are one block.
code: void f() { switch (1) { case 1: int a; case 2:
code: int a; } }
--- /near.c
void f() { int a; switch (1) { case 1: case 2:
int a; } }
#pragma strict_types
--- written
/strict.c line 2: name used twice
/strong.c line 2: name used twice
/weak.c line 2: name used twice
4 files, 3 faults

=== double_two_labels
# In each mode: two equal integers.
code: void f() { switch (1) { case 1:
code: case 1: ; } }
--- /near.c
void f() { switch (1) { case 1:
case 2: ; } }
#pragma strict_types
--- written
/strict.c line 2: label used twice
/strong.c line 2: label used twice
/weak.c line 2: label used twice
4 files, 3 faults

=== double_two_ranges
# In each mode: two ranges that have a number in common.
code: void f() { switch (1) { case 1 .. 3:
code: case 3 .. 5: ; } }
--- /near.c
void f() { switch (1) { case 1 .. 3:
case 4 .. 5: ; } }
#pragma strict_types
--- written
/strict.c line 2: label used twice
/strong.c line 2: label used twice
/weak.c line 2: label used twice
4 files, 3 faults

=== double_label_in_a_range
# In each mode: an integer in an earlier range.
code: void f() { switch (1) { case 1 .. 3:
code: case 2: ; } }
--- /near.c
void f() { switch (1) { case 1 .. 3:
case 4: ; } }
#pragma strict_types
--- written
/strict.c line 2: label used twice
/strong.c line 2: label used twice
/weak.c line 2: label used twice
4 files, 3 faults

=== double_two_texts
# In each mode: two equal texts.
code: void f() { switch ("") { case "a":
code: case "a": ; } }
--- /near.c
void f() { switch ("") { case "a":
case "b": ; } }
#pragma strict_types
--- written
/strict.c line 2: label used twice
/strong.c line 2: label used twice
/weak.c line 2: label used twice
4 files, 3 faults

=== double_two_defaults
# In each mode: two labels for all others.
code: void f() { switch (1) { default:
code: default: ; } }
--- /near.c
void f() { switch (1) { default:
case 1: ; } }
#pragma strict_types
--- written
/strict.c line 2: label used twice
/strong.c line 2: label used twice
/weak.c line 2: label used twice
4 files, 3 faults

=== count_too_few
# With strong_types and strict_types: too few arguments of a function; one that is `varargs` takes them.
code: void g(int a) {} void f() {
code: g(); }
--- /near.c
varargs void g(int a) {} void f() {
g(); }
#pragma strict_types
--- written
/strict.c line 2: wrong number of arguments
/strong.c line 2: wrong number of arguments
4 files, 2 faults

=== count_too_many_with_varargs
# With strong_types and strict_types: too many arguments, which `varargs` does not allow.
code: varargs void g(int a) {} void f() {
code: g(1, 2); }
--- /near.c
varargs void g(int a) {} void f() {
g(1); }
#pragma strict_types
--- written
/strict.c line 2: wrong number of arguments
/strong.c line 2: wrong number of arguments
4 files, 2 faults

=== count_too_few_for_a_prototype
# With strong_types and strict_types: a prototype says how many arguments there are.
code: void g(int a); void f() {
code: g(); }
--- /near.c
void g(int a); void f() {
g(1); }
#pragma strict_types
--- written
/strict.c line 2: wrong number of arguments
/strong.c line 2: wrong number of arguments
4 files, 2 faults

=== wrong_argument
# With strong_types and strict_types: an argument that does not fit; the literal 0 fits each type.
code: void g(int a) {} void f() {
code: g(""); }
--- /near.c
void g(int a) {} void f() {
g(0); }
#pragma strict_types
--- written
/strict.c line 2: wrong type
/strong.c line 2: wrong type
4 files, 2 faults

=== wrong_second_argument
# With strong_types and strict_types: the second argument does not fit; `mixed` takes it.
code: void g(int a, string b) {} void f() {
code: g(1, 1); }
--- /near.c
void g(int a, mixed b) {} void f() {
g(1, 1); }
#pragma strict_types
--- written
/strict.c line 2: wrong type
/strong.c line 2: wrong type
4 files, 2 faults

=== wrong_assignment
# With strong_types and strict_types: a text for an int variable; `+=` is not looked at.
code: int a; void f() {
code: a = ""; }
--- /near.c
int a; void f() {
a += ""; }
#pragma strict_types
--- written
/strict.c line 2: wrong type
/strong.c line 2: wrong type
4 files, 2 faults

=== wrong_assignment_to_an_array
# With strong_types and strict_types: an int for an array; an item of it takes anything.
code: int *a; void f() {
code: a = 1; }
--- /near.c
int *a; void f() {
a[0] = ""; }
#pragma strict_types
--- written
/strict.c line 2: wrong type
/strong.c line 2: wrong type
4 files, 2 faults

=== wrong_initialiser_of_a_local
# With strong_types and strict_types: the second of two locals, at the line of the statement's name.
code: void f() { int a = 1,
code: b = ""; }
--- /near.c
void f() { int a = 1; string
b = ""; }
#pragma strict_types
--- written
/strict.c line 2: wrong type
/strong.c line 2: wrong type
4 files, 2 faults

=== wrong_initialiser_of_a_global
# With strong_types and strict_types: an array for an int.
code: int a,
code: b = ({ });
--- /near.c
int a,
*b = ({ });
#pragma strict_types
--- written
/strict.c line 2: wrong type
/strong.c line 2: wrong type
4 files, 2 faults

=== wrong_initialiser_of_another_array
# With strong_types and strict_types: arrays fit where their items do.
code: int *a; string *b =
code: a;
--- /near.c
int *a; mixed *b =
a;
#pragma strict_types
--- written
/strict.c line 1: wrong type
/strong.c line 1: wrong type
4 files, 2 faults

=== wrong_initialiser_by_a_cast
# With strong_types and strict_types: a cast gives its type.
code: int **a; int b =
code: (int *) a;
--- /near.c
int **a; int b =
(int) a;
#pragma strict_types
--- written
/strict.c line 1: wrong type
/strong.c line 1: wrong type
4 files, 2 faults

=== wrong_assignment_in_an_argument
# With strong_types and strict_types: an assignment in an argument is one of the statement.
code: void g(int a) {} void f() { int a;
code: g(a = ""); }
--- /near.c
void g(int a) {} void f() { string a;
g(a = ""); }
#pragma strict_types
--- written
/strict.c line 2: wrong type
/strong.c line 2: wrong type
4 files, 2 faults

=== wrong_assignment_in_a_for
# With strong_types and strict_types: in the first part of a `for`.
code: void f() { int a;
code: for (a = ""; ; ) ; }
--- /near.c
void f() { int a;
for (a = 1; ; ) ; }
#pragma strict_types
--- written
/strict.c line 2: wrong type
/strong.c line 2: wrong type
4 files, 2 faults

=== wrong_assignments_in_a_for
# With strong_types and strict_types: in the test and in the step of a `for`: two faults at one token.
code: void f() {
code: for (int a; a = ""; a = "") ; }
--- /near.c
void f() {
for (string a; a = ""; a = "") ; }
#pragma strict_types
--- written
/strict.c line 2: wrong type
/strict.c line 2: wrong type
/strong.c line 2: wrong type
/strong.c line 2: wrong type
4 files, 4 faults

=== wrong_assignment_in_a_foreach
# With strong_types and strict_types: in what a `foreach` goes over.
code: void f() { int a;
code: foreach (int b : a = "") ; }
--- /near.c
void f() { int a;
foreach (int b : a = 1) ; }
#pragma strict_types
--- written
/strict.c line 2: wrong type
/strong.c line 2: wrong type
4 files, 2 faults

=== wrong_assignment_in_a_switch
# With strong_types and strict_types: in what a `switch` looks at.
code: void f() { int a;
code: switch (a = "") { } }
--- /near.c
void f() { int a;
switch (a == "") { } }
#pragma strict_types
--- written
/strict.c line 2: wrong type
/strong.c line 2: wrong type
4 files, 2 faults

=== wrong_assignment_in_an_initialiser
# With strong_types and strict_types: in the initialiser of a local.
code: void f() { int a;
code: int b = (a = ""); }
--- /near.c
void f() { int a;
int b = (a = 2); }
#pragma strict_types
--- written
/strict.c line 2: wrong type
/strong.c line 2: wrong type
4 files, 2 faults

=== bad_return_of_a_text
# With strong_types and strict_types: a text from an `int` function.
code: int f() {
code: return ""; }
--- /near.c
int f() {
return 1; }
#pragma strict_types
--- written
/strict.c line 2: wrong return
/strong.c line 2: wrong return
4 files, 2 faults

=== bad_return_of_an_int
# With strong_types and strict_types: an int from a function of an array; 0 fits.
code: int *f() {
code: return 1; }
--- /near.c
int *f() {
return 0; }
#pragma strict_types
--- written
/strict.c line 2: wrong return
/strong.c line 2: wrong return
4 files, 2 faults

=== bad_return_from_void
# With strong_types and strict_types: a value from a `void` function, also 0.
code: void f() {
code: return 0; }
--- /near.c
void f() {
return; }
#pragma strict_types
--- written
/strict.c line 2: wrong return
/strong.c line 2: wrong return
4 files, 2 faults

=== bad_return_of_nothing
# With strong_types and strict_types: no value from an `int` function.
code: int f() {
code: return; }
--- /near.c
int f() {
return 0; }
#pragma strict_types
--- written
/strict.c line 2: wrong return
/strong.c line 2: wrong return
4 files, 2 faults

=== bad_return_of_nothing_from_mixed
# With strong_types and strict_types: nor from a `mixed` one.
code: mixed f() {
code: return; }
--- /near.c
mixed f() {
return ""; }
#pragma strict_types
--- written
/strict.c line 2: wrong return
/strong.c line 2: wrong return
4 files, 2 faults

=== bad_return_of_nothing_from_void_array
# With strong_types and strict_types: an array of `void` is no `void`.
code: void *f() {
code: return; }
--- /near.c
void *f() {
return ({ }); }
#pragma strict_types
--- written
/strict.c line 2: wrong return
/strong.c line 2: wrong return
4 files, 2 faults

=== bad_return_in_a_loop
# With strong_types and strict_types: a `return` in statements.
code: void f() { if (1) { while (1)
code: return 1; } }
--- /near.c
void f() { if (1) { while (1)
return; } }
#pragma strict_types
--- written
/strict.c line 2: wrong return
/strong.c line 2: wrong return
4 files, 2 faults

=== bad_return_of_a_call
# With strong_types and strict_types: a call from a `void` function.
code: int f() { return 1; } void g() {
code: return f(); }
--- /near.c
int f() { return 1; } int g() {
return f(); }
#pragma strict_types
--- written
/strict.c line 2: wrong return
/strong.c line 2: wrong return
4 files, 2 faults

=== function_without_a_type
# With strict_types alone: the nearest is `void`.
code:
code: f() {}
--- /near.c

void f() {}
#pragma strict_types
--- written
/strict.c line 2: missing type
4 files, 1 faults

=== prototype_without_a_type
# With strict_types alone: the nearest is `mixed`.
code:
code: f();
--- /near.c

mixed f();
#pragma strict_types
--- written
/strict.c line 2: missing type
4 files, 1 faults

=== parameter_without_a_type
# With strict_types alone: at the line of the parameter.
code: void f(int a,
code: b) {}
--- /near.c
void f(int a,
mixed b) {}
#pragma strict_types
--- written
/strict.c line 2: missing type
4 files, 1 faults

=== parameter_of_a_prototype_without_a_type
# With strict_types alone: of a prototype too.
code: void f(
code: a);
--- /near.c
void f(
int a);
#pragma strict_types
--- written
/strict.c line 2: missing type
4 files, 1 faults

=== function_with_modifiers_alone
# With strict_types alone: the first token of a function may be a modifier.
code: private
code: nomask
code: f() {}
--- /near.c
private
nomask void
f() {}
#pragma strict_types
--- written
/strict.c line 1: missing type
4 files, 1 faults

=== function_and_parameter_without_types
# With strict_types alone: two faults in one line, and no others: what has no type is mixed.
code: f(a) {} void g() { f(""); int *b = f(1); }
--- /near.c
mixed f(mixed a) {} void g() { f(""); int *b = f(1); }
#pragma strict_types
--- written
/strict.c line 1: missing type
/strict.c line 1: missing type
4 files, 2 faults

=== nothing
# A file of nothing.
code:
--- written
3 files, 0 faults

=== an_argument_in_two_lines
# The fault stands at the call, not at the parameter.
code:
code: int g(int x) { return x; } void h() { g("a"); }
--- written
/strict.c line 2: wrong type
/strong.c line 2: wrong type
3 files, 2 faults

=== a_name
# A name that means no variable.
code: void f() { a; }
--- written
/strict.c line 1: unknown name
/strong.c line 1: unknown name
/weak.c line 1: unknown name
3 files, 3 faults

=== a_global
# A global is a name.
code: int a; void f() { a; }
--- written
3 files, 0 faults

=== a_parameter
# A parameter is a name.
code: void f(int a) { a; }
--- written
3 files, 0 faults

=== a_local_before_its_declaration
# A local is not seen before its declaration.
code: void f() { a;
code: int a; }
--- written
/strict.c line 1: unknown name
/strong.c line 1: unknown name
/weak.c line 1: unknown name
3 files, 3 faults

=== a_local_in_its_own_initialiser
# Nor in its own initialiser.
code: void f() { int a = a; }
--- written
/strict.c line 1: unknown name
/strong.c line 1: unknown name
/weak.c line 1: unknown name
3 files, 3 faults

=== a_local_behind_its_block
# Nor behind its block.
code: void f() { { int a; }
code: a; }
--- written
/strict.c line 2: unknown name
/strong.c line 2: unknown name
/weak.c line 2: unknown name
3 files, 3 faults

=== a_variable_of_a_for_behind_it
# A variable of a `for` is not seen behind the loop.
code: void f() { for (int i = 0; i < 1; i++) ;
code: i; }
--- written
/strict.c line 2: unknown name
/strong.c line 2: unknown name
/weak.c line 2: unknown name
3 files, 3 faults

=== a_foreach_over_its_own_variable
# What a `foreach` goes over does not see its variables.
code: void f() { foreach (int i : i) i; }
--- written
/strict.c line 1: unknown name
/strong.c line 1: unknown name
/weak.c line 1: unknown name
3 files, 3 faults

=== a_foreach_of_no_variable
# A name without a type has to mean a variable.
code: void f() { int *x; foreach (i : x) ; }
--- written
/strict.c line 1: unknown name
/strong.c line 1: unknown name
/weak.c line 1: unknown name
3 files, 3 faults

=== a_declaration_as_a_branch
# A bare declaration in a branch belongs to the block round it.
code: void f() { if (1) int x; x; }
--- written
3 files, 0 faults

=== a_declaration_as_the_body_of_a_do
# And one that is the body of a `do` is seen in its test.
code: void f() { do int x = 1; while (x); }
--- written
3 files, 0 faults

=== a_function
# A name that means no function.
code: void f() { g(); }
--- written
/strict.c line 1: unknown function
/strong.c line 1: unknown function
/weak.c line 1: unknown function
3 files, 3 faults

=== a_prototype
# A prototype is a function that may be called.
code: void g(); void f() { g(); }
--- written
3 files, 0 faults

=== a_call_with_too_few
# Too few arguments.
code: void g(int a) {} void f() { g(); }
--- written
/strict.c line 1: wrong number of arguments
/strong.c line 1: wrong number of arguments
3 files, 2 faults

=== a_call_with_too_many
# Too many arguments.
code: void g(int a) {} void f() { g(1, 2); }
--- written
/strict.c line 1: wrong number of arguments
/strong.c line 1: wrong number of arguments
3 files, 2 faults

=== a_call_of_varargs
# Too few of a function that is `varargs`.
code: varargs void g(int a) {} void f() { g(); }
--- written
3 files, 0 faults

=== an_argument
# A text for an int.
code: void g(int a) {} void f() { g("x"); }
--- written
/strict.c line 1: wrong type
/strong.c line 1: wrong type
3 files, 2 faults

=== an_argument_0
# The literal 0 for a text.
code: void g(string a) {} void f() { g(0); }
--- written
3 files, 0 faults

=== an_initialiser_of_a_local
# A text for an int.
code: void f() { int a = "x"; }
--- written
/strict.c line 1: wrong type
/strong.c line 1: wrong type
3 files, 2 faults

=== an_initialiser_of_a_global
# A text for an int.
code: int a = "x";
--- written
/strict.c line 1: wrong type
/strong.c line 1: wrong type
3 files, 2 faults

=== an_assignment
# A text for an int.
code: void f() { int a;
code: a = "x"; }
--- written
/strict.c line 2: wrong type
/strong.c line 2: wrong type
3 files, 2 faults

=== a_status
# `status` is `int`.
code: status a; void f() { int b = a; }
--- written
3 files, 0 faults

=== an_array_for_an_int
# An array is no int.
code: int *a; void f() { int b = a; }
--- written
/strict.c line 1: wrong type
/strong.c line 1: wrong type
3 files, 2 faults

=== a_local_that_hides_a_global
# The local has its own type.
code: int a; void f() { string a;
code: a = "x"; }
--- written
3 files, 0 faults

=== a_function_and_its_parameter
# They may be used or not.
code: int f(int a) { return 1; }
--- written
3 files, 0 faults

=== globals_of_one_name
# Two globals.
code: int a;
code: int a;
--- written
/strict.c line 2: name used twice
/strong.c line 2: name used twice
/weak.c line 2: name used twice
3 files, 3 faults

=== locals_of_one_name
# Two locals in one declaration.
code: void f() { int a,
code: a; }
--- written
/strict.c line 2: name used twice
/strong.c line 2: name used twice
/weak.c line 2: name used twice
3 files, 3 faults

=== locals_that_hide
# A local hides a parameter, and one of a block in it hides that.
code: void f(int a) { int a; { int a; } }
--- written
3 files, 0 faults

=== two_faults_of_a_local
# Two faults at one token, in their order; with weak types there is one.
code: void f() { int a, a = "x"; }
--- written
/strict.c line 1: wrong type
/strict.c line 1: name used twice
/strong.c line 1: wrong type
/strong.c line 1: name used twice
/weak.c line 1: name used twice
3 files, 5 faults

=== labels_of_integers
# A range and an integer in it, two ranges, ranges of nothing, which may stand twice, and two `default`s.
code: void f() { switch (1) { case 1: case 2 .. 4:
code: case 3:
code: case 4 .. 9:
code: case 10: case 5 .. 0: case 5 .. 0: default:
code: default: ; } }
--- written
/strict.c line 2: label used twice
/strict.c line 3: label used twice
/strict.c line 5: label used twice
/strong.c line 2: label used twice
/strong.c line 3: label used twice
/strong.c line 5: label used twice
/weak.c line 2: label used twice
/weak.c line 3: label used twice
/weak.c line 5: label used twice
3 files, 9 faults

=== labels_of_texts
# Two equal texts, and an integer in a range.
code: void f() { switch (1) { case "a": case "b":
code: case "a": case -1 .. 1:
code: case 0: ; } }
--- written
/strict.c line 2: label used twice
/strict.c line 3: label used twice
/strong.c line 2: label used twice
/strong.c line 3: label used twice
/weak.c line 2: label used twice
/weak.c line 3: label used twice
3 files, 6 faults

=== a_return_of_nothing
# From an `int` function.
code: int f() { return; }
--- written
/strict.c line 1: wrong return
/strong.c line 1: wrong return
3 files, 2 faults

=== a_return_from_void
# Of a value.
code: void f() { return 1; }
--- written
/strict.c line 1: wrong return
/strong.c line 1: wrong return
3 files, 2 faults

=== no_type
# A function without a type: a fault with strict_types alone.
code:
code: f() { return 1; }
--- written
/strict.c line 2: missing type
3 files, 1 faults

=== no_types
# A function and its parameter without types: a fault with strict_types alone.
code: f(a) {}
--- written
/strict.c line 1: missing type
/strict.c line 1: missing type
3 files, 2 faults

=== returns_without_a_type
# A function without a type may return a value, or none: a fault with strict_types alone.
code: f() { return; } g() { return 1; }
--- written
/strict.c line 1: missing type
/strict.c line 1: missing type
3 files, 2 faults
