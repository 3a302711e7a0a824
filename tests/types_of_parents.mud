# What a child knows of the types of functions and variables of its parents. It is /t, with strong_types; its pragma
# stands in the last line, so that the lines are those of the calls.
words: check

=== prototype
# The value, and each parameter: what has no type is mixed.
--- /a.c
int f(int a, string *b, c);
--- /t.c
inherit "/a"; void t() { int i = f(1, ({ }), 1); f(1, 0, "c");
string s = f(1, ({ }), 1);
f("a", ({ }), 1);
f(1, "b", 1);
f(1, ({ })); }
#pragma strong_types
--- written
/t.c line 2: wrong type
/t.c line 3: wrong type
/t.c line 4: wrong type
/t.c line 5: wrong number of arguments
2 files, 4 faults

=== first_of_two_prototypes
# Of two prototypes the first counts.
--- /a.c
int f();
string f(int a);
--- /t.c
inherit "/a"; void t() { int i = f();
string s = f();
f(1); }
#pragma strong_types
--- written
/t.c line 2: wrong type
/t.c line 3: wrong number of arguments
2 files, 2 faults

=== function_behind_its_prototype
# The function counts, behind its prototype too.
--- /a.c
int f();
void f(int a) { }
--- /t.c
inherit "/a"; void t() { f(1);
f();
int i = f(1); }
#pragma strong_types
--- written
/t.c line 2: wrong number of arguments
/t.c line 3: wrong type
2 files, 2 faults

=== function_before_its_prototype
# And before it.
--- /a.c
int f(int a) { }
string f();
--- /t.c
inherit "/a"; void t() { int i = f(1);
f();
string s = f(1); }
#pragma strong_types
--- written
/t.c line 2: wrong number of arguments
/t.c line 3: wrong type
2 files, 2 faults

=== prototype_over_two_steps
# A prototype is known to the child of a child.
--- /a.c
int f(int a);
--- /b.c
inherit "/a";
--- /t.c
inherit "/b"; void t() { int i = f(1);
f();
string s = f(1); }
#pragma strong_types
--- written
/t.c line 2: wrong number of arguments
/t.c line 3: wrong type
3 files, 2 faults

=== own_prototype_before_that_of_a_parent
# Of two prototypes that of the child counts.
--- /a.c
string f();
--- /t.c
inherit "/a"; int f(int a); void t() { int i = f(1);
f();
string s = f(1); }
#pragma strong_types
--- written
/t.c line 2: wrong number of arguments
/t.c line 3: wrong type
2 files, 2 faults

=== own_prototype_beside_a_private_function
# A private function of the parent is none for the child, whose prototype counts.
--- /a.c
private string f() { }
--- /t.c
inherit "/a"; int f(int a); void t() { int i = f(1);
f();
string s = f(1); }
#pragma strong_types
--- written
/t.c line 2: wrong number of arguments
/t.c line 3: wrong type
2 files, 2 faults

=== function_of_a_parent_before_own_prototype
# A function of the parent goes before the prototype of the child, also before a private one.
--- /a.c
string f() { return "a"; }
string g() { return "a"; }
--- /t.c
inherit "/a"; int f(int a); private int g(int a); void t() { string s = f() + g(); s = f(); s = g();
f(1);
g(1);
int i = f();
int j = g(); }
#pragma strong_types
--- written
/t.c line 2: wrong number of arguments
/t.c line 3: wrong number of arguments
/t.c line 4: wrong type
/t.c line 5: wrong type
2 files, 4 faults

=== prototypes_of_two_parents
# Of two parents the last, but for a private prototype.
--- /a.c
int f(int a);
int g(int a);
--- /b.c
string f();
private string g();
--- /t.c
inherit "/a"; inherit "/b"; void t() { string s = f(); int i = g(1);
f(1);
g();
i = f();
s = g(1); }
#pragma strong_types
--- written
/t.c line 2: wrong number of arguments
/t.c line 3: wrong number of arguments
/t.c line 4: wrong type
/t.c line 5: wrong type
3 files, 4 faults

=== varargs
# A function that is `varargs` is that for the child too.
--- /a.c
varargs static int f(int a, int b) { }
--- /t.c
inherit "/a"; void t() { f(); f(1); f(1, 2); ::f();
f(1, 2, 3);
::f("a"); }
#pragma strong_types
--- written
/t.c line 2: wrong number of arguments
/t.c line 3: wrong type
2 files, 2 faults

=== variables
# Stars belong to one variable.
--- /a.c
int c, *d;
status e;
--- /t.c
inherit "/a"; void t() { c = 1; d = ({ 1 }); e = c;
c = ({ 1 });
d = 1;
e = "e"; }
#pragma strong_types
--- written
/t.c line 2: wrong type
/t.c line 3: wrong type
/t.c line 4: wrong type
2 files, 3 faults

=== variables_of_two_parents
# Of two parents the variable of the last is seen.
--- /a.c
int a, b;
private int c;
--- /b.c
nosave mixed a;
private mixed b;
string c;
--- /t.c
inherit "/a"; inherit "/b"; void t() { a = "a"; b = 1; c = "c";
b = "b";
c = 1; }
#pragma strong_types
--- written
/t.c line 2: wrong type
/t.c line 3: wrong type
3 files, 2 faults

=== variables_of_two_parents_the_other_way_round
# The order of the inherits is what counts.
--- /a.c
int a, b;
private int c;
--- /b.c
nosave mixed a;
private mixed b;
string c;
--- /t.c
inherit "/b"; inherit "/a"; void t() { a = 1; b = 1; c = "c";
a = "a";
b = "b";
c = 1; }
#pragma strong_types
--- written
/t.c line 2: wrong type
/t.c line 3: wrong type
/t.c line 4: wrong type
3 files, 3 faults

=== private_variable_between
# What is private in the last parent does not hide what an earlier one shows.
--- /a.c
int a;
--- /b.c
inherit "/a";
private string b;
--- /t.c
inherit "/b"; void t() { a = 1;
a = "a";
b = "b"; }
#pragma strong_types
--- written
/t.c line 2: wrong type
/t.c line 3: unknown name
3 files, 2 faults
