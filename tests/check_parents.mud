# Checks of files that inherit one another: parents that are missing or faulty, with what is told of their children.
words: check

=== missing_parent
# A missing parent stands in its place by path, and counts for no file.
--- /a.c
inherit "/b";
--- written
/b.c line 0: no such file
1 files, 1 faults

=== missing_parent_is_told_once
# It is told once, however many inherit it, between the faults of the others.
--- /a.c
int f() { return x; }
--- /c.c
inherit "/b";
--- /d.c
inherit "/b";
--- /e.c
int f() { return x; }
--- written
/a.c line 1: unknown name
/b.c line 0: no such file
/e.c line 1: unknown name
4 files, 3 faults

=== first_missing_parent_ends_the_load
# The first parent that is missing ends the load of its child, so the next is not looked for.
--- /a.c
inherit "/c";
inherit "/b";
--- written
/c.c line 0: no such file
1 files, 1 faults

=== spellings_of_a_name
# A name has a leading `/` and a trailing `.c`, written or not.
--- /a.c
inherit "b";
inherit "/c.c";
inherit "d.c";
int f() { return g() + h() + k(); }
--- /b.c
int g() { return 1; }
--- /c.c
int h() { return 1; }
--- /d.c
int k() { return 1; }
--- written
4 files, 0 faults

=== child_of_a_missing_parent_has_no_types
# A child of a missing parent has no fault of its types, but has those of its expansion and grammar.
--- /a.c
inherit "/b";
int f() { return g() + x; }
--- written
/b.c line 0: no such file
1 files, 1 faults

=== child_of_a_missing_parent_has_grammar
# A fault of the grammar is told, and the missing parent is not looked for.
--- /a.c
inherit "/b";
int f() { return 1 }
--- written
/a.c line 2: unexpected token
1 files, 1 faults

=== faulty_parent
# So it is with a parent that has a fault of its own.
--- /a.c
inherit "/b";
int f() { return x; }
--- /b.c
int g( {
--- written
/b.c line 1: unexpected token
2 files, 1 faults

=== faulty_parent_and_expansion_of_a_child
# A fault of the expansion is told of a child with a faulty parent, and one of the types is not.
--- /a.c
inherit "/b";
"open
--- /b.c
int g() { return y; }
--- /c.c
inherit "/b";
int h() { return z; }
--- written
/a.c line 2: bad token
/b.c line 1: unknown name
3 files, 2 faults

=== faulty_parent_of_a_parent
# And with the parent of a parent; each fault of the last is told once.
--- /a.c
inherit "/b";
int f() { return x; }
--- /b.c
inherit "/c";
int g() { return y; }
--- /c.c
int h() { return z; }
int k() { return h(z); }
--- /d.c
inherit "/c";
int l() { return x; }
--- written
/c.c line 1: unknown name
/c.c line 2: unknown name
4 files, 2 faults

=== names_and_types_of_parents
# A child is checked with the names and types of its parents.
--- /p.c
int g(int x) { return x; }
int v;
--- /q.c
#pragma strong_types
inherit "/p";
void h() {
  g(v);
  g("a");
  g();
  v = "a";
}
--- written
/q.c line 5: wrong type
/q.c line 6: wrong number of arguments
/q.c line 7: wrong type
2 files, 3 faults

=== private_names_of_parents
# What is private in a parent is not known in its child.
--- /p.c
private int g() { return v; }
private int v;
--- /q.c
inherit "/p";
int f() { return g(); }
int h() { return v; }
--- written
/q.c line 2: unknown function
/q.c line 3: unknown name
2 files, 2 faults

=== private_function_of_a_child
# A private function of the child, for which a parent's call goes.
--- /p.c
int f() { return 1; }
int g() { return f(); }
--- /q.c
inherit "/p";
private int f() { return 2; }
--- /r.c
inherit "/q";
int h() { return g(); }
--- written
3 files, 0 faults
