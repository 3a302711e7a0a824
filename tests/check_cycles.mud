# Checks of files that inherit themselves.
words: check

=== inherits_itself
# The line is that of the `inherit`.
--- /a.c

inherit "/a";
--- written
/a.c line 2: inherits itself
1 files, 1 faults

=== two_inherit_each_other
# The load of the first file by path finds the cycle where it comes back to it.
--- /a.c
inherit "/b";
--- /b.c
inherit "/a";
--- written
/b.c line 1: inherits itself
2 files, 1 faults

=== three_in_a_cycle
# A cycle of three files, which a fourth inherits; none of them has faults of its types.
--- /a.c
inherit "/c";
int f() { return x; }
--- /b.c
int g();
inherit "/a";
--- /c.c
inherit "/b";
--- /d.c
inherit "/c";
int h() { return x; }
--- written
/b.c line 2: inherits itself
4 files, 1 faults

=== cycle_without_the_first_file
# A cycle that the first file is not in.
--- /a.c
inherit "/c";
--- /b.c
inherit "/c";
--- /c.c
inherit "/b";
--- written
/b.c line 1: inherits itself
3 files, 1 faults

=== inherited_twice_is_no_cycle
# A parent that is inherited twice is no cycle.
--- /a.c
inherit "/b";
inherit "/c";
--- /b.c
inherit "/c";
--- /c.c
int f() { return 1; }
--- written
3 files, 0 faults
