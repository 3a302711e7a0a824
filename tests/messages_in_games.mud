# Who is told what, and who is there.

=== say_goes_to_all_but_who_speaks
# `say` goes to all living ones in the place but who speaks, the latest that came first; who has no connection is told by `catch_tell`.
--- /dog.c
void create() { enable_commands(); }
void catch_tell(string s) { if (s == "sit\n") tell_room(environment(), "The dog sits.\n"); }
--- /player.c
int logon() { enable_commands(); add_action("speak", "say"); move_object(this_object(), "/room"); return 1; }
int speak(string s) { say(s + "\n"); write("You say: " + s + "\n"); return 1; }
--- /room.c
void create() { move_object(load_object("/dog"), this_object()); move_object(load_object("/stone"), this_object()); }
--- /secure/master.c
object connect() { return clone_object("/player"); }
--- /stone.c
void catch_tell(string s) { tell_room(environment(), "The stone speaks.\n"); }
--- play
connect 1
connect 2
line 1: say sit
end
--- written
to 2: "sit\n"
      "The dog sits.\n"
to 1: "The dog sits.\n"
      "You say: sit\n"
end

=== present_by_id
# `present` looks for an object by `id`, in this object and then round it, or in one that is given; or tells whether one is there.
--- /a.c
int id(string s) { return s == "thing" || s == "a"; }
--- /b.c
int id(string s) { return s == "thing"; }
--- /room.c
--- /secure/master.c
object connect() { return this_object(); }
string name(object o) { return o ? object_name(o) : "none"; }
int logon() {
  move_object(this_object(), "/room"); move_object(load_object("/a"), "/room"); move_object(load_object("/b"), "/room");
  write(name(present("thing")) + name(present("a")) + name(present("c")) + "\n");
  move_object(load_object("/a"), this_object());
  write(name(present("thing")) + name(present("thing", load_object("/room"))) + name(present("a", load_object("/room"))) + "\n");
  write(name(present(load_object("/a"))) + name(present(load_object("/b"))) + name(present(load_object("/a"), load_object("/room"))) + "\n");
  return 1;
}
--- play
connect 1
end
--- written
to 1: "/b/anone\n"
      "/a/bnone\n"
      "/a/bnone\n"
end

=== told_as_the_inventory_stood
# Each is told as the inventory stood; who ends, or who has left, before its turn is left out or told all the same.
--- /a.c
inherit "/n";
--- /b.c
inherit "/n";
--- /c.c
inherit "/n";
void catch_tell(string s) {
  ::catch_tell(s); destruct(load_object("/b")); move_object(load_object("/a"), "/hall"); move_object(load_object("/e"), "/room");
}
--- /d.c
inherit "/n";
--- /e.c
inherit "/n";
--- /hall.c
--- /n.c
void create() { enable_commands(); }
void catch_tell(string s) { "/secure/master"->note(object_name() + ":" + s); }
--- /room.c
--- /secure/master.c
object connect() { return this_object(); }
int logon() {
  load_object("/e"); move_object(load_object("/a"), "/room"); move_object(load_object("/b"), "/room"); move_object(load_object("/stone"), "/room");
  move_object(load_object("/c"), "/room"); move_object(load_object("/d"), "/room");
  tell_room(load_object("/room"), "boo\n"); return 1;
}
void note(string s) { tell_object(this_object(), s); }
--- /stone.c
--- play
connect 1
end
--- written
to 1: "/d:boo\n"
      "/c:boo\n"
      "/a:boo\n"
end

=== without_a_player_this_object_speaks
# Without a player it is this object that speaks; nothing is said where it is nowhere.
--- /a.c
inherit "/n";
--- /n.c
void create() { enable_commands(); }
void catch_tell(string s) { "/secure/master"->note(object_name() + ":" + s); }
--- /room.c
--- /secure/master.c
object connect() { return this_object(); }
int logon() { move_object(load_object("/a"), "/room"); call_out("go", 1); return 1; }
void go() { "/stone"->go(); }
void note(string s) { tell_object(this_object(), s); }
--- /stone.c
void go() { say("mm\n"); move_object(this_object(), "/room"); call_out("hum", 1); }
void hum() { say("hum\n"); }
--- play
connect 1
tick 1
tick 2
end
--- written
to 1: "/a:hum\n"
end

=== player_speaks_where_it_is
# A player speaks where it is, whoever says it, and hears nothing of it.
--- /a.c
inherit "/n";
--- /b.c
inherit "/n";
--- /hall.c
--- /horn.c
void blow() { say("toot\n"); }
--- /n.c
void create() { enable_commands(); }
void catch_tell(string s) { "/secure/master"->note(object_name() + ":" + s); }
--- /room.c
--- /secure/master.c
object connect() { return this_object(); }
int logon() {
  move_object(load_object("/a"), "/room"); move_object(load_object("/b"), "/hall"); move_object(load_object("/horn"), "/hall");
  enable_commands(); "/horn"->blow(); move_object(this_object(), "/room"); "/horn"->blow(); return 1;
}
void note(string s) { tell_object(this_object(), s); }
--- play
connect 1
end
--- written
to 1: "/a:toot\n"
end

=== present_asks_those_that_live
# `present` asks those that live when their turn comes, by the functions that others may call; what it found may have ended.
--- /a.c
int id(string s) { "/secure/master"->note("a"); return s == "x"; }
--- /b.c
int id(string s) { "/secure/master"->note("b"); destruct(load_object("/a")); return 0; }
--- /bag.c
--- /c.c
static int id(string s) { "/secure/master"->note("c"); return 1; }
--- /d.c
int id(string s) { "/secure/master"->note("d"); destruct(this_object()); return s == "end"; }
--- /room.c
--- /secure/master.c
object connect() { return this_object(); }
string name(object o) { return o ? object_name(o) : "none"; }
int logon() {
  move_object(load_object("/a"), "/room"); move_object(load_object("/b"), "/room"); move_object(load_object("/c"), "/room");
  write(name(present("x", load_object("/room"))) + "\n"); move_object(load_object("/d"), "/bag"); write(name(present("end", load_object("/bag"))) + "\n");
  write(catch(present("x", 5)) + catch(present(0)) + name(present("x", load_object("/bag"))) + "\n"); return 1;
}
void note(string s) { write(s); }
--- play
connect 1
end
--- written
to 1: "bnone\n"
      "dnone\n"
      "*Bad argument 2 to present\n"
      "*Bad argument 1 to present\n"
      "none\n"
end
