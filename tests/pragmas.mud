# Pragmas: what they forbid, and which of them count.
--- /secure/master.c
object connect() { return this_object(); }
int query_allow_shadow() { return 1; }
int logon() {
  write(sprintf("%O", catch(clone_object("/t"))));
  write(load_object("/s")->t(load_object("/t")));
  write(sprintf("%O", catch(load_object("/c"))));
  return 1;
}
--- /s.c
int t(object o) { return shadow(o); }
--- /c.c
inherit "/t";
--- /t.c
@@
--- play
connect 1
end

=== none
# A file without pragmas is cloned, shadowed and inherited. What is no pragma is ignored, and so is a number.
code: #pragma zz, 7 no-clone noclone
gives: "010"

=== no_clone
# The blueprint is not cloned. The pragma may stand anywhere in its file.
code: int x;
code: #pragma no_clone
gives: "\"*Not clonable\\n\"10"

=== no_shadow
# It is not shadowed.
code: #pragma no_shadow
gives: "000"

=== no_inherit
# It is not inherited: the child has a fault.
code: #pragma no_inherit
--- written
to 1: "01"
log: "/c.c line 1: not inheritable"
to 1: "\"*Could not load /c\\n\""
end

=== several
# Of the words of a line each counts.
code: #pragma strict_types, no_shadow no_clone 7 zz
gives: "\"*Not clonable\\n\"00"

=== skipped
# A pragma in a skipped group is none.
code: #if 0
code: #pragma no_shadow
code: #endif
gives: "010"

=== of_an_included_file
# A pragma of an included file is one of the file that includes it.
code: #include "t.h"
--- /t.h
#pragma no_shadow
--- written
to 1: "000"
end

=== last_of_the_types
# Of the three pragmas of types the last counts, for the whole file: with strict_types two types would be missing, with
# weak_types nothing would be wrong.
words: check
--- /t.c
#pragma strict_types, weak_types no_clone 7 zz
f(a) { }
int g() { return "x"; }
#pragma strong_types
--- /u.c
f(a) { }
int g() { return "x"; }
#pragma strong_types strict_types
--- /v.c
#pragma strong_types strict_types
f(a) { }
int g() { return "x"; }
#pragma weak_types
--- written
/t.c line 3: wrong return
/u.c line 1: missing type
/u.c line 1: missing type
/u.c line 2: wrong return
6 files, 4 faults
