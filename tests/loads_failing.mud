# Files with faults, and objects whose first values or `create` fail.
# Each case also with all objects and programs out after each step.
words: replay
words: replay --swap-time 1
--- /secure/master.c
object connect() { return this_object(); }
int logon() {
  enable_commands();
  add_action("load", "load"); add_action("call", "call"); add_action("lives", "lives");
  return 1;
}
int load(string s) { write(sprintf("%O\n", load_object(s))); return 1; }
int call(string s) {
  string name, f;
  sscanf(s, "%s %s", name, f);
  write(sprintf("%O\n", call_other(name, f)));
  return 1;
}
int lives(string s) { write(find_object(s) ? "yes\n" : "no\n"); return 1; }
--- /m.c
object copy() { return clone_object("/p"); }
object child() { return load_object("/c"); }
object lost() { return load_object("/k"); }
int other() { return "/t"->f(); }
mixed careful() { return catch(load_object("/p")); }
--- /p.c
int logon( {
--- /c.c
inherit "/p"; int x;
--- /k.c
inherit "/none";
--- /t.c
#pragma strong_types
int f() { return g(); }
int h() { return x; }

int i() { return h(1); }
--- /n.c
#pragma no_inherit
int v() { return 7; }
--- /o.c
inherit "/n";

=== a_file_with_a_fault
# It is logged once, where it stands; there is no object. Of an heir too, whose parent's file failed: that name is told.
--- play
connect 1
line 1: load /p
tick 1
line 1: load /c
tick 2
line 1: lives /p
line 1: lives /c
end
--- written
log: "/p.c line 1: unexpected token"
log: "error: Could not load /p [load of /secure/master, object /secure/master]"
to 1: "Your sensitive mind notices a wrongness in the fabric of space.\n"
log: "/p.c line 1: unexpected token"
log: "error: Could not load /p [load of /secure/master, object /secure/master]"
to 1: "Your sensitive mind notices a wrongness in the fabric of space.\n"
to 1: "no\n"
to 1: "no\n"
end

=== a_file_that_is_not_there
# In no line; as a parent too.
--- play
connect 1
line 1: load /none
tick 1
line 1: load /k
end
--- written
log: "/none.c line 0: no such file"
log: "error: Could not load /none [load of /secure/master, object /secure/master]"
to 1: "Your sensitive mind notices a wrongness in the fabric of space.\n"
log: "/none.c line 0: no such file"
log: "error: Could not load /none [load of /secure/master, object /secure/master]"
to 1: "Your sensitive mind notices a wrongness in the fabric of space.\n"
end

=== each_fault_of_types_is_told
# In the order of the lines.
--- play
connect 1
line 1: load /t
end
--- written
log: "/t.c line 2: unknown function"
log: "/t.c line 3: unknown name"
log: "/t.c line 5: wrong number of arguments"
log: "error: Could not load /t [load of /secure/master, object /secure/master]"
to 1: "Your sensitive mind notices a wrongness in the fabric of space.\n"
end

=== a_parent_that_may_not_be_inherited
# It lives, and its heir does not.
--- play
connect 1
line 1: load /o
tick 1
line 1: lives /n
line 1: lives /o
end
--- written
log: "/o.c line 1: not inheritable"
log: "error: Could not load /o [load of /secure/master, object /secure/master]"
to 1: "Your sensitive mind notices a wrongness in the fabric of space.\n"
to 1: "yes\n"
to 1: "no\n"
end

=== who_wanted_it_is_told
# By a clone, a load, a load of what has no parent, a call by name, and caught: the name is that whose file failed.
--- play
connect 1
line 1: load /m
tick 1
line 1: call /m copy
tick 2
line 1: call /m child
tick 3
line 1: call /m lost
tick 4
line 1: call /m other
tick 5
line 1: call /m careful
end
--- written
to 1: "/m\n"
log: "/p.c line 1: unexpected token"
log: "error: Could not load /p [copy of /m, object /m]"
to 1: "Your sensitive mind notices a wrongness in the fabric of space.\n"
log: "/p.c line 1: unexpected token"
log: "error: Could not load /p [child of /m, object /m]"
to 1: "Your sensitive mind notices a wrongness in the fabric of space.\n"
log: "/none.c line 0: no such file"
log: "error: Could not load /none [lost of /m, object /m]"
to 1: "Your sensitive mind notices a wrongness in the fabric of space.\n"
log: "/t.c line 2: unknown function"
log: "/t.c line 3: unknown name"
log: "/t.c line 5: wrong number of arguments"
log: "error: Could not load /t [other of /m, object /m]"
to 1: "Your sensitive mind notices a wrongness in the fabric of space.\n"
log: "/p.c line 1: unexpected token"
to 1: "\"*Could not load /p\\n\"\n"
end

=== a_begin_that_fails
# A parent's is logged, and the load goes on over the object as it is; else it ends the load, with the object there, whose first
# values stand as far as they came. What lives is not begun again. A clone's is the cloner's; an heir may catch what its parent throws.
--- /p.c
int x = 7; void create() { x = 1 / (x - 7); } int v() { return x; }
--- /c.c
inherit "/p"; void create() { x++; }
--- /q.c
int y = 1 / zero(); int z = 3; int zero() { return 0; } void create() { write("never"); } int v() { return z; }
--- /d.c
inherit "/q"; int w = 4; int v() { return w * 10 + ::v(); }
--- /r.c
void create() { throw(object_name()); }
--- /e.c
inherit "/r"; void create() { catch(::create()); write("goes on\n"); }
--- /m.c
mixed careful() { return catch(load_object("/r")); }
mixed child() { return catch(load_object("/d")); }
mixed copy() { return catch(clone_object("/p")); }
object wild() { return clone_object("/r"); }
--- play
connect 1
line 1: load /c
tick 1
line 1: lives /p
line 1: call /c v
line 1: call /p v
tick 2
line 1: load /d
tick 3
line 1: lives /d
line 1: call /d v
tick 4
line 1: load /e
tick 5
line 1: call /m careful
line 1: call /m child
tick 6
line 1: call /m copy
tick 7
line 1: lives /p#1
line 1: call /m wild
tick 8
line 1: lives /r#2
line 1: call /p#1 v
end
--- written
log: "error: Division by zero [create of /p, object /p]"
to 1: "/c\n"
to 1: "yes\n"
to 1: "8\n"
to 1: "7\n"
log: "error: Division by zero [__INIT of /q, object /q]"
log: "error: Division by zero [__INIT of /q, object /d]"
to 1: "Your sensitive mind notices a wrongness in the fabric of space.\n"
to 1: "yes\n"
to 1: "0\n"
log: "error: Throw without catch [create of /r, object /r]"
to 1: "goes on\n/e\n"
to 1: "0\n"
to 1: "0\n"
to 1: "\"*Division by zero\\n\"\n"
to 1: "yes\n"
log: "error: Throw without catch [create of /r, object /r#2]"
to 1: "Your sensitive mind notices a wrongness in the fabric of space.\n"
to 1: "yes\n"
to 1: "7\n"
end

=== files_that_inherit_themselves
# The fault is that of the file whose `inherit` leads back, in its line; which one that is depends on where the load begins. One that
# names itself, and a loaded parent beside the circle, which stays.
--- /a.c
inherit "/b";
--- /b.c
int f();

inherit "/c";
--- /c.c
int f();
inherit "/ok"; inherit "/a";
--- /s.c
inherit "s";
--- /ok.c
int z;
--- /m.c
object go() { return load_object("/b"); }
object self() { return clone_object("/s"); }
--- play
connect 1
line 1: load /a
tick 1
line 1: load /c
tick 2
line 1: load /s
tick 3
line 1: call /m go
line 1: call /m self
tick 4
line 1: lives /ok
line 1: lives /a
line 1: lives /c
end
--- written
log: "/c.c line 2: inherits itself"
log: "error: Could not load /c [load of /secure/master, object /secure/master]"
to 1: "Your sensitive mind notices a wrongness in the fabric of space.\n"
log: "/b.c line 3: inherits itself"
log: "error: Could not load /b [load of /secure/master, object /secure/master]"
to 1: "Your sensitive mind notices a wrongness in the fabric of space.\n"
log: "/s.c line 1: inherits itself"
log: "error: Could not load /s [load of /secure/master, object /secure/master]"
to 1: "Your sensitive mind notices a wrongness in the fabric of space.\n"
log: "/a.c line 1: inherits itself"
log: "error: Could not load /a [go of /m, object /m]"
to 1: "Your sensitive mind notices a wrongness in the fabric of space.\n"
log: "/s.c line 1: inherits itself"
log: "error: Could not load /s [self of /m, object /m]"
to 1: "Your sensitive mind notices a wrongness in the fabric of space.\n"
to 1: "yes\n"
to 1: "no\n"
to 1: "no\n"
end
