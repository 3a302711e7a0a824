# Files with new texts between commands.

=== object_goes_on_with_its_program
# An object goes on with its program, and a new clone has the new one.
--- /c.c
string v() { return "old"; }
--- /secure/master.c
object x;
object connect() { return this_object(); }
int logon() { x = clone_object("/c"); enable_commands(); add_action("go", "go"); return 1; }
int go(string s) { write(x->v() + clone_object("/c")->v() + "\n"); return 1; }
--- play
connect 1
--- reload /c.c
string v() { return "new"; }
--- play
line 1: go
end
--- written
to 1: "oldnew\n"
end

=== child_goes_on_with_its_parents
# So does a file that inherits the one with a new text.
--- /k.c
inherit "/p";
--- /p.c
string v() { return "p1"; }
--- /secure/master.c
object connect() { return this_object(); }
int logon() { load_object("/k"); enable_commands(); add_action("go", "go"); return 1; }
int go(string s) { write("/k"->v() + "/p"->v() + "\n"); return 1; }
--- play
connect 1
--- reload /p.c
string v() { return "p2"; }
--- play
line 1: go
end
--- written
to 1: "p1p2\n"
end
