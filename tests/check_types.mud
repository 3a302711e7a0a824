# Checks of files each for itself: the faults of their types, by the mode that they ask for.
words: check

=== strict_types_want_a_type
# With strict types a function has a type.
--- /t.c
#pragma strict_types
f() { return 1; }
--- written
/t.c line 2: missing type
1 files, 1 faults

=== weak_types_want_none
# Without a pragma it may have none.
--- /t.c
f() { return 1; }
--- written
1 files, 0 faults

=== strong_types_look_at_arguments
# With strong types the types of arguments count.
--- /t.c
#pragma strong_types
int g(int x) { return x; } void h() { g("a"); }
--- written
/t.c line 2: wrong type
1 files, 1 faults

=== weak_types_do_not
# Without a pragma they do not.
--- /t.c
int g(int x) { return x; } void h() { g("a"); }
--- written
1 files, 0 faults

=== each_fault_is_told_in_order
# Each fault of a file's types is told, in the order of the tokens.
--- /a.c
int f() { return x; }
int f() {
  return g() + y;
}
--- /b.c
int f() { return 1; }
--- /c.c
void h() { switch (1) { case 1: case 1: ; } }
--- written
/a.c line 1: unknown name
/a.c line 2: name used twice
/a.c line 3: unknown function
/a.c line 3: unknown name
/c.c line 1: label used twice
3 files, 5 faults

=== count_of_arguments_of_an_efun
# An efun with too many arguments.
--- /t.c
void f() { write(1, 2); }
--- written
/t.c line 1: wrong number of arguments
1 files, 1 faults

=== wrong_returns
# A value returned from a `void` function, and none from another one.
--- /t.c
#pragma strong_types
void f() {
  return 1;
}
int g() {
  return;
}
--- written
/t.c line 3: wrong return
/t.c line 6: wrong return
1 files, 2 faults

=== last_pragma_counts
# The last pragma counts, for the whole file.
--- /t.c
f() { return 1; }
#pragma strict_types
#pragma weak_types
--- written
1 files, 0 faults

=== names_of_an_include
# What an include brings is known in the file, under the line of the include.
--- /t.c
#include "/t.h"
int f() { return g() + h(); }
--- /t.h
int g() { return k; }
--- written
/t.c line 1: unknown name
/t.c line 2: unknown function
1 files, 2 faults
