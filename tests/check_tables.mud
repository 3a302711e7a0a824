# Checks of files that inherit one another: faults of the tables of a file with its parents.
words: check

=== nomask_overridden
# A function that a parent has as nomask; the line is that of the function.
--- /m.c
inherit "/n";
int f() { return 2; }
--- /n.c
nomask int f() { return 1; }
--- /secure/master.c
object connect() { return this_object(); }
int logon() { write("Hello\n"); return 1; }
--- written
/m.c line 2: nomask function overridden
3 files, 1 faults

=== nomask_beside_another_parent
# Beside the function of another parent, at the later `inherit`.
--- /a.c
nomask int f() { return 1; }
--- /b.c
int f() { return 2; }
--- /c.c
inherit "/a";

inherit "/b";
--- /d.c
inherit "/b";


inherit "/a";
--- written
/c.c line 3: nomask function overridden
/d.c line 4: nomask function overridden
4 files, 2 faults

=== nomask_by_two_ways
# One that comes from one file by two ways stands beside itself; a private one forbids nothing.
--- /a.c
nomask int f() { return 1; }
private nomask int g() { return 1; }
--- /b.c
inherit "/a";
--- /c.c
inherit "/a";
int g() { return 2; }
--- /d.c
inherit "/b";
inherit "/c";
--- written
4 files, 0 faults

=== no_inherit
# A file that may not be inherited; the line is that of the `inherit`.
--- /a.c
#pragma no_inherit
int f() { return 1; }
--- /b.c
int g();
inherit "/a";
--- written
/b.c line 2: not inheritable
2 files, 1 faults

=== ambiguous_parent
# Two parents have the name that a call gives; a longer one tells them apart.
--- /a.c
inherit "/x/p";
inherit "/y/p";
int g() {
  return "p"::f();
}
int h() { return "x/p"::f() + "/y/p"::f() + ::f(); }
--- /x/p.c
int f() { return 1; }
--- /y/p.c
int f() { return 2; }
--- written
/a.c line 4: ambiguous parent
3 files, 1 faults

=== first_fault_of_tables_alone
# Only the first of them is told, by its token, and none where the types have faults.
--- /m.c
inherit "/n";
int f() { return 2; }
int g() { return 2; }
--- /n.c
nomask int f() { return 1; }
nomask int g() { return 1; }
--- written
/m.c line 2: nomask function overridden
2 files, 1 faults

=== types_before_tables
# Faults of the types are told, and that of the tables is not.
--- /m.c
inherit "/n";
int f() { return x; }
int g() { return h(); }
--- /n.c
nomask int f() { return 1; }
--- written
/m.c line 2: unknown name
/m.c line 3: unknown function
2 files, 2 faults

=== child_of_faulty_tables
# A child of such a file is not looked at.
--- /l.c
inherit "/m";
int h() { return x; }
--- /m.c
inherit "/n";
int f() { return 2; }
--- /n.c
nomask int f() { return 1; }
--- written
/m.c line 2: nomask function overridden
3 files, 1 faults
