# Locals that hide a global, a parameter, or a local of another block, by their types. A row is one source with
# strong_types, whose pragma stands in its last line.
words: check
--- /t.c
@@
#pragma strong_types

=== local_hides_global
# A local hides a global, behind its declaration.
code: int a; void f() {
code: a = "x"; string a;
code: a = "x";
code: a = 1; }
--- written
/t.c line 2: wrong type
/t.c line 4: wrong type
1 files, 2 faults

=== end_of_a_function
# Up to the end of its function.
code: int a; void f() { string a; } void g() {
code: a = 1;
code: a = "x"; }
--- written
/t.c line 3: wrong type
1 files, 1 faults

=== parameter_hides_global
# A parameter hides a global.
code: int a; void f(string a) {
code: a = "x";
code: a = 1; }
--- written
/t.c line 3: wrong type
1 files, 1 faults

=== parameter_of_one_function
# In its own function.
code: int a; void f(string a) {} void g() {
code: a = 1;
code: a = "x"; }
--- written
/t.c line 3: wrong type
1 files, 1 faults

=== local_hides_parameter
# A local hides a parameter, behind its declaration.
code: void f(int a) {
code: a = "x"; string a;
code: a = "x";
code: a = 1; }
--- written
/t.c line 2: wrong type
/t.c line 4: wrong type
1 files, 2 faults

=== local_hides_local
# A local hides a local of the block round it, up to the end of its own.
code: void f() { int a; {
code: a = "x"; string a;
code: a = "x";
code: a = 1; }
code: a = 1;
code: a = "x"; }
--- written
/t.c line 2: wrong type
/t.c line 4: wrong type
/t.c line 6: wrong type
1 files, 3 faults

=== three_blocks
# Three of one name in one another.
code: void f() { int a; { string a; { object a;
code: a = 1; }
code: a = 1; }
code: a = "x"; }
--- written
/t.c line 2: wrong type
/t.c line 3: wrong type
/t.c line 4: wrong type
1 files, 3 faults

=== blocks_side_by_side
# Blocks that stand side by side.
code: void f() { { int a; } { string a;
code: a = "x";
code: a = 1; }
code: a; }
--- written
/t.c line 3: wrong type
/t.c line 4: unknown name
1 files, 2 faults

=== names_of_blocks_side_by_side
# Two names of one block are a fault, of two blocks they are none.
code: void f() { { int a;
code: int a; } { int a; } { int a;
code: int a; } }
--- written
/t.c line 2: name used twice
/t.c line 3: name used twice
1 files, 2 faults

=== own_initialiser
# A name is hidden behind its own initialiser.
code: int a; void f() { string a = a;
code: a = 1; }
--- written
/t.c line 1: wrong type
/t.c line 2: wrong type
1 files, 2 faults

=== for
# The variable of a `for` is there to the end of the statement.
code: void f() { string i; for (int i = 0; i < 1; i++) {
code: i = 1;
code: i = "x"; }
code: i = "x";
code: i = 1; }
--- written
/t.c line 3: wrong type
/t.c line 5: wrong type
1 files, 2 faults

=== foreach
# So is that of a `foreach`.
code: void f() { string a; foreach (int a : ({ 1 })) {
code: a = 1;
code: a = "x"; }
code: a = "x";
code: a = 1; }
--- written
/t.c line 3: wrong type
/t.c line 5: wrong type
1 files, 2 faults

=== two_of_a_for
# Two variables of one `for` with one name.
code: void f() { for (int i,
code: i; 1; 1) ; }
--- written
/t.c line 2: name used twice
1 files, 1 faults

=== two_of_a_foreach
# And two of one `foreach`.
code: void f() { foreach (int a,
code: int a : ([ ])) ; }
--- written
/t.c line 2: name used twice
1 files, 1 faults
