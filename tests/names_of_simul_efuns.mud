# Names of simul efuns, among functions of the file and efuns. A row is one source with strong_types, where `greet` and
# `write` are simul efuns.
words: check --simul /simul.c
--- /simul.c
void greet() { }
void write() { }
--- /t.c
@@
#pragma strong_types

=== any_number
# A simul efun takes any number of arguments.
code: void f() { greet(); greet(1, "x", 2); }
--- written
2 files, 0 faults

=== longer_name
# A longer name means nothing.
code: void f() { greets(); }
--- written
/t.c line 1: unknown function
2 files, 1 faults

=== shorter_name
# A shorter name means nothing.
code: void f() { gree(); }
--- written
/t.c line 1: unknown function
2 files, 1 faults

=== before_an_efun
# It goes before an efun of its name.
code: void f() { write(); write(1, 2); }
--- written
2 files, 0 faults

=== efun
# An efun beside it has its count.
code: void f() { say();
code: say(1, 2); }
--- written
/t.c line 1: wrong number of arguments
/t.c line 2: wrong number of arguments
2 files, 2 faults

=== efun_named_as_such
# `efun::` means efuns alone.
code: void f() { efun::write();
code: efun::write(1);
code: efun::greet(1); }
--- written
/t.c line 1: wrong number of arguments
/t.c line 3: unknown function
2 files, 2 faults

=== super
# `::` means functions of parents alone.
code: void f() { ::greet();
code: ::write(1);
code: ::f(); }
--- written
/t.c line 1: unknown function
/t.c line 2: unknown function
/t.c line 3: unknown function
2 files, 3 faults

=== parent
# So does a path before it.
code: void f() { "p"::greet();
code: "p"::write(1); }
--- written
/t.c line 1: unknown function
/t.c line 2: unknown function
2 files, 2 faults

=== own_function
# A function of the file goes before both.
code: void greet(int a) {}
code: void f() { greet();
code: greet(1); }
--- written
/t.c line 2: wrong number of arguments
2 files, 1 faults

=== own_prototype
# So does a prototype, behind the call too.
code: void f() { greet();
code: greet(1); }
code: void greet(int a);
--- written
/t.c line 1: wrong number of arguments
2 files, 1 faults

=== own_function_of_the_name_of_an_efun
# And `efun::` means the efun all the same.
code: void write(int a, int b) {}
code: void f() { write(1);
code: write(1, 2);
code: efun::write(1); }
--- written
/t.c line 2: wrong number of arguments
2 files, 1 faults

=== value
# What a simul efun or an efun gives fits each type.
code: void f() { string a = greet();
code: int *b = greet();
code: int c = say(1); }
--- written
2 files, 0 faults
