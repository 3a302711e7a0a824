# Reports of versions. A clone ends after its file got another text and has another clone, and a child whose parent's blueprint ends.
words: replay --report
--- /c.c
int v() { return 1; }
--- /k.c
inherit "/p";
--- /p.c
int w() { return 1; }
--- /secure/master.c
object x;
object connect() { return this_object(); }
int logon() { x = clone_object("/c"); call_out("again", 1); call_out("ends", 2); call_out("child", 3); return 1; }
void again() { clone_object("/c"); }
void ends() { destruct(x); }
void child() { load_object("/k"); destruct(find_object("/p")); }

=== old_version_is_kept
# An old version is kept by what lives of it, and after it no more, also where both are out.
--- play
connect 1
--- reload /c.c
int v() { return 2; }
--- play
tick 1
end
--- written
end
report 4 0 3 0

=== old_version_out
# The old version goes out with the clone that has it.
--- play
connect 1
--- reload /c.c
int v() { return 2; }
--- play
tick 1
swap /c#1
end
--- written
end
report 4 1 3 1

=== old_version_ends_out
# It ends with its clone, also where both are out; the new one goes out with the new clone.
--- play
connect 1
--- reload /c.c
int v() { return 2; }
--- play
tick 1
swap /c#1
tick 2
swap /c#2
end
--- written
end
report 3 1 2 1

=== version_of_a_parent
# A parent's version is kept by its child's.
--- play
connect 1
tick 3
swap /k
end
--- written
end
report 4 1 4 1
