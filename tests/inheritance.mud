# What inherited functions and variables do. The master loads /t, and of each of some names tells which file's function
# other objects see, and what a call of it gives. Where /t has a function `save`, its saved text shows each variable that
# it has, in the order in which they stand. What is told of an f that nobody sees is what a call from another object
# gives: 0.
--- /secure/master.c
int valid_read() { return 1; }
int valid_write() { return 1; }
object connect() { return this_object(); }
int logon() {
  object t = load_object("/t");
  foreach (string s : ({ "f", "g", "h", "calls" })) {
    mixed where = function_exists(s, t);
    write(s + " " + (where ? where : "-") + " " + call_other(t, s) + "; ");
  }
  t->save();
  if (read_file("/t.o")) write("\n" + read_file("/t.o"));
  return 1;
}
--- play
connect 1
end

=== one_file
# Its own functions and variables.
--- /t.c
string x = "t.x";
string f() { return "t.f"; }
string g() { return "t.g"; }
void save() { save_object("/t"); }
--- written
to 1: "f /t t.f; g /t t.g; h - 0; calls - 0; \n"
      "#2:0\nx \"t.x\"\n"
end

=== child_of_one
# A function of the child goes before that of the parent, and each of the two files has a variable x of its own.
--- /a.c
private string x = "a.x";
string f() { return "a.f " + x; }
string g() { return "a.g " + x; }
--- /t.c
inherit "/a";
string x = "t.x";
string f() { return "t.f " + x; }
string h() { return "t.h " + x; }
void save() { save_object("/t"); }
--- written
to 1: "f /t t.f t.x; g /a a.g a.x; h /t t.h t.x; calls - 0; \n"
      "#2:0\nx \"a.x\"\nx \"t.x\"\n"
end

=== diamond
# /a is inherited from two sides, and so there are two of its variable, each of them where its side is. The own function
# goes before all, and the last side before the other one.
--- /a.c
private string x = "a.x";
void name(string s) { x = s; }
string f() { return "a.f " + x; }
string g() { return "a.g " + x; }
--- /b.c
inherit "/a";
private string x = "b.x";
void name_b() { ::name("a.x of b"); }
string f() { return "b.f " + x; }
string h() { return "b.h " + x; }
--- /c.c
inherit "/a";
private string x = "c.x";
void name_c() { ::name("a.x of c"); }
string h() { return "c.h " + x; }
string f() { return "c.f " + x; }
--- /t.c
inherit "/b";
inherit "/c";
string x = "t.x";
string f() { return "t.f " + x; }
void create() { name_b(); name_c(); }
void save() { save_object("/t"); }
--- written
to 1: "f /t t.f t.x; g /a a.g a.x of c; h /c c.h c.x; calls - 0; \n"
      "#2:0\nx \"a.x of b\"\nx \"b.x\"\nx \"a.x of c\"\nx \"c.x\"\nx \"t.x\"\n"
end

=== diamond_without_a_function
# Without a function of its own the last side counts.
--- /a.c
private string x = "a.x";
void name(string s) { x = s; }
string f() { return "a.f " + x; }
string g() { return "a.g " + x; }
--- /b.c
inherit "/a";
private string x = "b.x";
void name_b() { ::name("a.x of b"); }
string f() { return "b.f " + x; }
string h() { return "b.h " + x; }
--- /c.c
inherit "/a";
private string x = "c.x";
void name_c() { ::name("a.x of c"); }
string h() { return "c.h " + x; }
string f() { return "c.f " + x; }
--- /t.c
inherit "/b";
inherit "/c";
void create() { name_b(); name_c(); }
void save() { save_object("/t"); }
--- written
to 1: "f /c c.f c.x; g /a a.g a.x of c; h /c c.h c.x; calls - 0; \n"
      "#2:0\nx \"a.x of b\"\nx \"b.x\"\nx \"a.x of c\"\nx \"c.x\"\n"
end

=== diamond_the_other_way_round
# The order of the inherits is what counts.
--- /a.c
private string x = "a.x";
void name(string s) { x = s; }
string f() { return "a.f " + x; }
string g() { return "a.g " + x; }
--- /b.c
inherit "/a";
private string x = "b.x";
void name_b() { ::name("a.x of b"); }
string f() { return "b.f " + x; }
string h() { return "b.h " + x; }
--- /c.c
inherit "/a";
private string x = "c.x";
void name_c() { ::name("a.x of c"); }
string h() { return "c.h " + x; }
string f() { return "c.f " + x; }
--- /t.c
inherit "/c";
inherit "/b";
void create() { name_b(); name_c(); }
void save() { save_object("/t"); }
--- written
to 1: "f /b b.f b.x; g /a a.g a.x of b; h /b b.h b.x; calls - 0; \n"
      "#2:0\nx \"a.x of c\"\nx \"c.x\"\nx \"a.x of b\"\nx \"b.x\"\n"
end

=== private_function_of_the_child
# A call in the parent finds the function of the child, also where that is private; other objects do not.
--- /a.c
string f() { return "a.f"; }
string calls() { return f(); }
--- /t.c
inherit "/a";
private string f() { return "t.f"; }
--- written
to 1: "f - 0; g - 0; h - 0; calls /a t.f; "
end

=== private_function_of_a_parent
# The next child sees neither that function nor the one behind it. The call in the first file finds nothing, and is 0.
--- /a.c
string f() { return "a.f"; }
string calls() { return "" + f(); }
--- /b.c
inherit "/a";
private string f() { return "b.f"; }
--- /t.c
inherit "/b";
--- written
to 1: "f - 0; g - 0; h - 0; calls /a 0; "
end

=== function_behind_a_private_one
# A function of the next child is found by the call in the first file.
--- /a.c
string f() { return "a.f"; }
string calls() { return f(); }
--- /b.c
inherit "/a";
private string f() { return "b.f"; }
--- /t.c
inherit "/b";
string f() { return "t.f"; }
--- written
to 1: "f /t t.f; g - 0; h - 0; calls /a t.f; "
end

=== private_function_of_the_calling_file
# A call in a file with a private function stays with that.
--- /a.c
private string f() { return "a.f"; }
string calls() { return f(); }
--- /t.c
inherit "/a";
--- written
to 1: "f - 0; g - 0; h - 0; calls /a a.f; "
end

=== own_function_beside_a_private_one
# Also where the child has a function of its name.
--- /a.c
private string f() { return "a.f"; }
string calls() { return f(); }
--- /t.c
inherit "/a";
string f() { return "t.f"; }
--- written
to 1: "f /t t.f; g - 0; h - 0; calls /a a.f; "
end

=== private_function_of_the_last_parent
# Where that of the last parent is private, that of an earlier one counts.
--- /a.c
string f() { return "a.f"; }
--- /b.c
string g() { return "b.g " + f(); }
private string f() { return "b.f"; }
--- /t.c
inherit "/a";
inherit "/b";
string h() { return "t.h " + f(); }
--- written
to 1: "f /a a.f; g /b b.g b.f; h /t t.h a.f; calls - 0; "
end

=== private_nomask
# A function that may not be masked forbids nothing where it is private: the child has one too.
--- /n.c
private nomask string f() { return "n.f"; }
string calls() { return f(); }
--- /t.c
inherit "/n";
string f() { return "t.f"; }
--- written
to 1: "f /t t.f; g - 0; h - 0; calls /n n.f; "
end

=== nomask_beside_what_is_not_seen
# A private function, and a prototype, of a later parent hide it from nobody.
--- /n.c
nomask string f() { return "n.f"; }
--- /b.c
private string f() { return "b.f"; }
string g() { return f(); }
--- /c.c
string f();
string h() { return f(); }
--- /t.c
inherit "/n";
inherit "/b";
inherit "/c";
--- written
to 1: "f /n n.f; g /b b.f; h /c n.f; calls - 0; "
end

=== nomask_from_two_sides
# One function from one version of a file stands beside itself.
--- /n.c
nomask string f() { return "n.f"; }
--- /b.c
inherit "/n";
--- /c.c
inherit "/n";
--- /t.c
inherit "/b";
inherit "/c";
--- written
to 1: "f /n n.f; g - 0; h - 0; calls - 0; "
end

=== nomask_of_two_versions
# The same text is another function in another version: /n is loaded anew between its two children.
--- /secure/master.c
object connect() { return this_object(); }
int logon() {
  enable_commands();
  add_action("get", "get");
  load_object("/b");
  return 1;
}
int get(string s) {
  load_object("/c");
  write("c; ");
  load_object("/t");
  return 1;
}
--- /n.c
nomask string f() { return "n.f"; }
--- /b.c
inherit "/n";
--- /c.c
inherit "/n";
--- /t.c
inherit "/b";
inherit "/c";
--- play
connect 1
--- reload /n.c
nomask string f() { return "n.f"; }
--- play
line 1: get
end
--- written
to 1: "c; "
log: "/t.c line 2: nomask function overridden"
log: "error: Could not load /t [get of /secure/master, object /secure/master]"
to 1: "Your sensitive mind notices a wrongness in the fabric of space.\n"
end

=== prototype_alone
# A prototype without a function anywhere: its calls give 0, and other objects see no function.
--- /t.c
int f(int a, string *b, c);
string calls() { return "t.calls " + f(1, ({ "b" }), 0); }
--- written
to 1: "f - 0; g - 0; h - 0; calls /t t.calls 0; "
end

=== prototype_and_function
# A function before its prototype and one behind it are the functions of those names.
--- /t.c
string f();
string g() { return "t.g " + f(); }
string f(int a) { return "t.f"; }
string g();
--- written
to 1: "f /t t.f; g /t t.g t.f; h - 0; calls - 0; "
end

=== prototype_of_the_child
# The function of a parent goes before the prototype of the child, also before a private one.
--- /a.c
string f() { return "a.f"; }
string g() { return "a.g"; }
--- /t.c
inherit "/a";
string f(int a);
private string g();
string calls() { return "t.calls " + f() + " " + g(); }
--- written
to 1: "f /a a.f; g /a a.g; h - 0; calls /t t.calls a.f a.g; "
end

=== prototype_of_a_parent
# The prototype of a parent is the function of the child, over two steps too.
--- /a.c
string f(int a);
string calls() { return "a.calls " + f(1); }
--- /b.c
inherit "/a";
--- /t.c
inherit "/b";
string f() { return "t.f"; }
--- written
to 1: "f /t t.f; g - 0; h - 0; calls /a a.calls t.f; "
end

=== prototype_of_a_parent_alone
# And nothing where no child has one.
--- /a.c
string f(int a);
string calls() { return "a.calls " + f(1); }
--- /b.c
inherit "/a";
--- /t.c
inherit "/b";
--- written
to 1: "f - 0; g - 0; h - 0; calls /a a.calls 0; "
end

=== prototype_beside_a_function
# The function of the first parent goes before the prototype of the last one.
--- /a.c
string f() { return "a.f"; }
--- /b.c
string f();
string calls() { return "b.calls " + f(); }
--- /t.c
inherit "/a";
inherit "/b";
--- written
to 1: "f /a a.f; g - 0; h - 0; calls /b b.calls a.f; "
end

=== private_function_behind_a_prototype
# A private function of a parent is none for the child, so that its prototype has no function.
--- /a.c
private string f() { return "a.f"; }
--- /t.c
inherit "/a";
string f(int a);
string calls() { return "t.calls " + f(1); }
--- written
to 1: "f - 0; g - 0; h - 0; calls /t t.calls 0; "
end

=== private_prototype_of_a_parent
# A private prototype of a parent is none for the child, which has a function of that name.
--- /a.c
private string f();
string calls() { return "a.calls " + f(); }
--- /t.c
inherit "/a";
string g() { return "t.g"; }
string f() { return "t.f"; }
--- written
to 1: "f /t t.f; g /t t.g; h - 0; calls /a a.calls t.f; "
end

=== modifiers
# A private and a protected function are called by no other object, nor is a static one. A modifier that stands there
# twice counts once, and each order of them is one.
--- /t.c
private static varargs string f() { return "t.f"; }
protected public nosave nomask string g() { return "t.g"; }
static static string h() { return "t.h"; }
public nomask public string calls() { return f() + g() + h() + this_object()->h(); }
--- written
to 1: "f - 0; g /t 0; h /t 0; calls /t t.ft.gt.ht.h; "
end

=== variables_of_parents
# Those of two parents stand one behind the other, in the order of the inherits, before the own ones. What is private has
# its place too; what is nosave is not saved.
--- /a.c
int a = 1;
private string *b = ({ "b" });
--- /b.c
nosave mixed n = 7;
mixed c = 2;
--- /t.c
inherit "/a";
inherit "/b";
int d = 3, *e = ({ 4 });
void save() { save_object("/t"); }
--- written
to 1: "f - 0; g - 0; h - 0; calls - 0; \n"
      "#2:0\na 1\nb ({\"b\",})\nc 2\nd 3\ne ({4,})\n"
end

=== variables_of_one_name
# Where two parents have the name, a child sees that of the later one. Both are there.
--- /a.c
int a = 1;
int of_a() { return a; }
--- /b.c
int a = 2;
int of_b() { return a; }
--- /t.c
inherit "/a";
inherit "/b";
string f() { a = 9; return of_a() + " " + of_b() + " " + a; }
void save() { save_object("/t"); }
--- written
to 1: "f /t 1 9 9; g - 0; h - 0; calls - 0; \n"
      "#2:0\na 1\na 9\n"
end

=== variables_of_one_parent_twice
# A parent that is inherited twice has its variables twice.
--- /a.c
int a = 1;
private int b = 2;
--- /t.c
inherit "/a";
inherit "/a";
string f() { a = 9; return "t.f"; }
void save() { save_object("/t"); }
--- written
to 1: "f /t t.f; g - 0; h - 0; calls - 0; \n"
      "#2:0\na 1\nb 2\na 9\nb 2\n"
end

=== variables_of_parents_of_parents
# Those of the parents of a parent stand before its own.
--- /a.c
int a = 1;
--- /b.c
int b = 2;
--- /c.c
inherit "/a";
inherit "/b";
int c = 3;
--- /t.c
inherit "/b";
inherit "/c";
int e = 4;
void save() { save_object("/t"); }
--- written
to 1: "f - 0; g - 0; h - 0; calls - 0; \n"
      "#2:0\nb 2\na 1\nb 2\nc 3\ne 4\n"
end

=== private_variable_of_a_parent
# What is private in a parent is not seen in the child, which may have a variable of that name.
--- /a.c
private int x = 1;
int y = 2;
int of_a() { return x; }
--- /t.c
inherit "/a";
int x = 3;
string f() { x = 9; return of_a() + " " + x; }
void save() { save_object("/t"); }
--- written
to 1: "f /t 1 9; g - 0; h - 0; calls - 0; \n"
      "#2:0\nx 1\ny 2\nx 9\n"
end
