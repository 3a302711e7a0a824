# What goes out to the swap file comes in again where it is wanted: nobody in the game can tell, at any swap time.
words: replay
words: replay --swap-time 0
words: replay --swap-time 1
words: replay --swap-time 900

=== array_in_itself
# An array in itself, and nothing goes out by name.
--- /a.c
mixed *v; void make() { v = ({0}); v[0] = v; } void show() { write(sizeof(v[0][0])); }
--- /secure/master.c
object connect() { return this_object(); }
int logon() { "/a"->make(); call_out("go", 1); return 1; }
void go() { "/a"->show(); }
--- play
connect 1
tick 1
end
--- written
log: "1"
end

=== array_in_itself_swapped
# An array in itself goes out and comes in.
--- /a.c
mixed *v; void make() { v = ({0}); v[0] = v; } void show() { write(sizeof(v[0][0])); }
--- /secure/master.c
object connect() { return this_object(); }
int logon() { "/a"->make(); call_out("go", 1); return 1; }
void go() { "/a"->show(); }
--- play
connect 1
swap /a
tick 1
end
--- written
log: "1"
end

=== values_of_each_kind
# Values of each kind go out and come in twice, with what has them twice.
--- /box.c
int n;
string s;
mixed *a;
mapping m;
object o;
mixed *again;
void fill(object who) {
  n = -7; s = "tail\n"; o = who;
  a = ({ 1, "two", ({ 3 }), 0 });
  a[3] = a;
  m = ([ "x": a, 5: "five", who: s ]);
  again = a[2];
}
void show() {
  again[0]++;
  write(n + "," + s + a[0] + a[1] + a[2][0] + sizeof(a[3][3]) + "," + (m["x"] == a) + m[5] + m[o] + sizeof(m) + object_name(o) + "\n");
}
--- /secure/master.c
object connect() { return this_object(); }
int logon() { "/box"->fill(this_object()); call_out("go", 1); call_out("go", 2); return 1; }
void go() { "/box"->show(); }
--- play
connect 1
swap /box
tick 1
swap /box
swap /box
tick 2
end
--- written
log: "-7,tail\n"
     "1two44,1fivetail\n"
     "3/secure/master\n"
log: "-7,tail\n"
     "1two54,1fivetail\n"
     "3/secure/master\n"
end

=== program_with_a_parent
# A program with a parent goes out, the child first and then the parent first.
--- /k.c
inherit "/p";
int twice() { more(); return more(); }
--- /p.c
int n; int more() { return ++n; }
--- /secure/master.c
object connect() { return this_object(); }
int logon() { load_object("/k"); call_out("go", 1); call_out("go", 2); return 1; }
void go() { write("/k"->twice() + "," + "/p"->more() + "\n"); }
--- play
connect 1
swap /k
swap /p
tick 1
swap /p
swap /k
tick 2
end
--- written
log: "2,1\n"
log: "4,2\n"
end

=== clone_with_a_successor
# A clone that is called goes out, ends and has a successor, which goes out; then its file has another text.
--- /c.c
int n; void create() { n = 5; } int more() { return ++n; }
--- /secure/master.c
object c;
object connect() { return this_object(); }
int logon() { c = clone_object("/c"); call_out("first", 1); call_out("second", 2); call_out("third", 3); return 1; }
void first() { write(c->more() + "\n"); }
void second() { destruct(c); write((c == 0) + "," + object_name(clone_object("/c")) + "\n"); }
void third() { c = find_object("/c#2"); write(c->more() + "/c"->more() + "\n"); }
--- play
connect 1
swap /c#1
swap /c
swap /none
tick 1
swap /c#1
tick 2
swap /c#2
swap /c
--- reload /c.c
int more() { return 100; }
--- play
tick 3
end
--- written
log: "6\n"
log: "1,/c#2\n"
log: "106\n"
end

=== monsters_go_about
# What has been idle for a second goes out after the first tick, and one of the monsters after the second.
--- /monster.c
string *places = ({ "the hall", "the yard" });
string kind;
object prey;
int at;

void hunt(string name, object player) {
  kind = name;
  prey = player;
  set_heart_beat(1);
}

void heart_beat() {
  at = 1 - at;
  tell_object(prey, "The " + kind + " goes to " + places[at] + ".\n");
}
--- /player.c
int logon() {
  write("Two monsters are about.\n");
  clone_object("/monster")->hunt("wolf", this_object());
  clone_object("/monster")->hunt("bear", this_object());
  return 1;
}
--- /secure/master.c
object connect() { return clone_object("/player"); }
--- play
connect 1
tick 1
tick 2
swap /monster#2
tick 4
end
--- written
to 1: "Two monsters are about.\n"
to 1: "The wolf goes to the yard.\n"
      "The bear goes to the yard.\n"
to 1: "The wolf goes to the hall.\n"
      "The bear goes to the hall.\n"
end
