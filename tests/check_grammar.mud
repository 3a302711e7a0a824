# Checks of files each for itself: the faults of their expansion and their grammar.
words: check

=== unexpected_token
# A fault of the grammar, and a file without any.
--- /p.c "int logon( {"
--- /secure/master.c
object connect() { return this_object(); }
int logon() { write("Hello\n"); return 1; }
--- written
/p.c line 1: unexpected token
2 files, 1 faults

=== no_such_include
# A header that is missing is a fault of the line that includes it.
--- /secure/master.c
#include "no.h"
object connect() { return this_object(); }
int logon() { write("Hello\n"); return 1; }
--- written
/secure/master.c line 1: no such include
1 files, 1 faults

=== group_that_is_not_looked_at
# A group whose condition does not hold is not looked at, so that its lone quote is no fault.
--- /secure/master.c
#define TWICE(x) ((x)+(x))
object connect() { return this_object(); }
#if TWICE(2) == 4
int logon() { write(TWICE(3)); return 1; }
#else
don't
#endif
--- written
1 files, 0 faults

=== no_files
# No files have no faults.
--- written
0 files, 0 faults

=== empty_file
# An empty file is a unit.
--- /e.c
--- written
1 files, 0 faults

=== header_is_read_where_it_is_included
# A header is read where it is included, and counts for nothing by itself.
--- /a.c
#include "a.h"
--- /a.h
int f( {
--- written
/a.c line 1: unexpected token
1 files, 1 faults

=== header_that_includes_itself
# A header that includes itself goes on until the includes are too deep; the line is that of the first include.
--- /a.h
#include "/a.h"
--- /secure/master.c
#include "/a.h"
object connect() { return this_object(); }
--- written
/secure/master.c line 1: includes too deep
1 files, 1 faults

=== names_without_c_are_no_sources
# Names without `.c` at their end are no sources.
--- /a "int f( {"
--- /a.c.h "int f( {"
--- /c "int f( {"
--- written
0 files, 0 faults

=== expansion_before_grammar
# A fault of the expansion comes before any of the grammar.
--- /a.c
int f( {

"open
--- /b.c
int b;

int f() { return 1 }
--- written
/a.c line 3: bad token
/b.c line 3: unexpected token
2 files, 2 faults

=== macro_of_a_header
# The line of a fault is one of the file, also where an include stands above it; a macro of a header is none of a file that does not include it.
--- /a.c
#include "/h.h"
int a() { return N; }
--- /b.c

#include "/h.h"
int b() { return N }
--- /c.c
int c() { return N; }
--- /h.h
#define N 1
--- written
/b.c line 3: unexpected token
/c.c line 1: unknown name
3 files, 2 faults

=== grammar_before_types
# A fault of the grammar comes before any of the types, and alone.
--- /a.c
int f() { return x; }
int g( {
--- written
/a.c line 2: unexpected token
1 files, 1 faults

=== nothing_is_run
# Nothing is run, so no master is wanted.
--- /a.c
int f() { return 1 / 0; }
--- written
1 files, 0 faults
