# Checks with the functions of /s.c as simul efuns.
words: check --simul /s.c

=== callable_functions_hide_efuns
# The callable functions hide efuns of their names.
--- /a.c
int f() {
  twice(1);
  hidden();
  secret();
  inner();
  later();
  write(1, 2);
  efun::write(1, 2);
  return 1;
}
--- /s.c
int twice(int x) { return x + x; }
static int hidden() { return 1; }
private int secret() { return 1; }
protected int inner() { return 1; }
int later();
void write(int a, int b) { }
--- written
/a.c line 3: unknown function
/a.c line 4: unknown function
/a.c line 5: unknown function
/a.c line 6: unknown function
/a.c line 8: wrong number of arguments
2 files, 5 faults

=== own_functions_hide_simul_efuns
# A file's own functions and its parents' hide theirs, and keep their types.
--- /a.c
#pragma strong_types
inherit "/b";
int f() {
  return twice("a");
}
int g() {
  return twice("b", 2);
}
--- /b.c
int twice(string s) { return 1; }
--- /s.c
int twice(int x) { return x + x; }
static int hidden() { return 1; }
private int secret() { return 1; }
protected int inner() { return 1; }
int later();
void write(int a, int b) { }
--- written
/a.c line 7: wrong number of arguments
3 files, 1 faults

=== inherited_functions_are_among_them
# The functions that the file inherits are among them, but for those that are private by then.
--- /a.c
int f() { return lower() + low(); }
int g() { return base(); }
--- /s.c
inherit "/t";
private int base() { return 2; }
--- /t.c
int low() { return 1; }
int lower() { return 1; }
int base() { return 1; }
--- written
/a.c line 2: unknown function
3 files, 1 faults

=== file_itself_sees_none
# The file and its parents are compiled before the names are known, so they see none.
--- /a.c
int f() { return twice(1); }
--- /s.c
inherit "/t";
int twice(int x) { return x; }
--- /t.c
int low() { return twice(1); }
--- written
/a.c line 1: unknown function
/t.c line 1: unknown function
3 files, 2 faults

=== faulty_file_gives_none
# A file with a fault gives no names, nor one that is missing, or whose parent is.
--- /a.c
int f() { return twice(1); }
--- /s.c
int twice(int x) { return y; }
--- written
/a.c line 1: unknown function
/s.c line 1: unknown name
2 files, 2 faults

=== missing_file_gives_none
# The file of the simul efuns is missing.
--- /a.c
int f() { return twice(1); }
--- written
/a.c line 1: unknown function
1 files, 1 faults

=== file_with_a_missing_parent_gives_none
# Its parent is missing.
--- /a.c
int f() { return twice(1); }
--- /s.c
inherit "/t";
int twice(int x) { return x; }
--- written
/a.c line 1: unknown function
/t.c line 0: no such file
2 files, 2 faults

=== file_is_inherited
# The file may itself be inherited.
--- /a.c
inherit "/s";
int f() { return hidden() + inner(); }
--- /b.c
inherit "/a";
int g() { return twice(1) + f(); }
--- /s.c
int twice(int x) { return x + x; }
static int hidden() { return 1; }
private int secret() { return 1; }
protected int inner() { return 1; }
int later();
void write(int a, int b) { }
--- written
3 files, 0 faults

=== other_spelling
# The other spelling of the option.
words: check --simul=/s.c
--- /a.c
int f() {
  twice(1);
  hidden();
  secret();
  inner();
  later();
  write(1, 2);
  efun::write(1, 2);
  return 1;
}
--- /s.c
int twice(int x) { return x + x; }
static int hidden() { return 1; }
private int secret() { return 1; }
protected int inner() { return 1; }
int later();
void write(int a, int b) { }
--- written
/a.c line 3: unknown function
/a.c line 4: unknown function
/a.c line 5: unknown function
/a.c line 6: unknown function
/a.c line 8: wrong number of arguments
2 files, 5 faults

=== no_file_by_that_path
# Without the option, and with paths that name no file of the script, the names are not known.
words: check
words: check --simul /s
words: check --simul /none.c
words: check --simul=s.c
words: check --simul=a=b
--- /a.c
int f() {
  twice(1);
  hidden();
  secret();
  inner();
  later();
  write(1, 2);
  efun::write(1, 2);
  return 1;
}
--- /s.c
int twice(int x) { return x + x; }
static int hidden() { return 1; }
private int secret() { return 1; }
protected int inner() { return 1; }
int later();
void write(int a, int b) { }
--- written
/a.c line 2: unknown function
/a.c line 3: unknown function
/a.c line 4: unknown function
/a.c line 5: unknown function
/a.c line 6: unknown function
/a.c line 7: wrong number of arguments
/a.c line 8: wrong number of arguments
2 files, 7 faults

=== file_that_is_no_source
# A path that names a file which is not compiled by itself.
words: check --simul=/s.h
--- /a.c
int f() {
  twice(1);
  hidden();
  secret();
  inner();
  later();
  write(1, 2);
  efun::write(1, 2);
  return 1;
}
--- /s.h
int twice(int x) { return x + x; }
static int hidden() { return 1; }
private int secret() { return 1; }
protected int inner() { return 1; }
int later();
void write(int a, int b) { }
--- written
/a.c line 2: unknown function
/a.c line 3: unknown function
/a.c line 4: unknown function
/a.c line 5: unknown function
/a.c line 6: unknown function
/a.c line 7: wrong number of arguments
/a.c line 8: wrong number of arguments
1 files, 7 faults
