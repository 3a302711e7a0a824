# Which fault of a file comes first: that of its text, then that its parent is missing, then those of its names and
# types.
words: check
--- /t.c
@@

=== missing_parent
# The parent is missing, and nothing else.
code: inherit "/p"; int f() { return 1; }
--- written
/p.c line 0: no such file
1 files, 1 faults

=== first_parent
# The first of two that are missing is told.
code: inherit "/p"; inherit "/q";
--- written
/p.c line 0: no such file
1 files, 1 faults

=== first_parent_by_place
# Not the first by its name.
code: inherit "/q"; inherit "/p";
--- written
/q.c line 0: no such file
1 files, 1 faults

=== parent_before_types
# It goes before an unknown name.
code: inherit "/p"; int f() { return x; }
--- written
/p.c line 0: no such file
1 files, 1 faults

=== text_before_parent
# And a fault of the text before it.
code: inherit "/p"; int f() { return ;
--- written
/t.c line 1: unexpected token
1 files, 1 faults

=== include_before_parent
# So does a missing include.
code: inherit "/p";
code: #include "no.h"
--- written
/t.c line 2: no such include
1 files, 1 faults

=== types
# All faults of types are told.
code: int f() { x(); y(); return z; }
--- written
/t.c line 1: unknown function
/t.c line 1: unknown function
/t.c line 1: unknown name
1 files, 3 faults

=== nothing
# A file of nothing has no fault.
code:
--- written
1 files, 0 faults

=== a_function
# Nor has a function.
code: int f() { return 1; }
--- written
1 files, 0 faults

=== a_variable
# Nor has a variable.
code: int a = 5;
--- written
1 files, 0 faults
