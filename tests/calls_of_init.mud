# In which order `init` is called, and for whom.

=== room_for_the_player_then_the_thing
# The room's for the player, and then for a thing that comes; a thing that is not living is nobody's player.
--- /room.c
void init() { write("r"); }
--- /secure/master.c
object connect() { return this_object(); }
int logon() { enable_commands(); move_object(this_object(), "/room"); move_object(load_object("/t"), "/room"); return 1; }
--- /t.c
void init() { write("t"); }
--- play
connect 1
end
--- written
to 1: "rt"
end

=== place_for_the_item_then_each_other
# The place's for the item; for each other object there, the latest first, the item's for it and its for the item.
--- /a.c
inherit "/thing";
--- /b.c
inherit "/thing";
--- /c.c
inherit "/thing";
--- /rec.c
string all;
void create() { all = ""; }
void add(string s) { all += s; }
string told() { return all; }
--- /room.c
void init() { "/rec"->add(object_name() + ":" + object_name(this_player()) + " "); }
--- /secure/master.c
object connect() { return this_object(); }
int logon() {
  move_object(load_object("/a"), "/room"); move_object(load_object("/b"), "/room"); move_object(load_object("/c"), "/room");
  tell_object(this_object(), "/rec"->told() + "\n"); return 1;
}
--- /thing.c
void create() { enable_commands(); }
void init() { "/rec"->add(object_name() + ":" + object_name(this_player()) + " "); }
--- play
connect 1
end
--- written
to 1: "/room:/a /room:/b /b:/a /a:/b /room:/c /c:/b /b:/c /c:/a /a:/c \n"
end

=== living_place_is_last
# A place that is living is called for last.
--- /a.c
inherit "/thing";
--- /box.c
inherit "/thing";
--- /rec.c
string all;
void create() { all = ""; }
void add(string s) { all += s; }
string told() { return all; }
--- /secure/master.c
object connect() { return this_object(); }
int logon() { move_object(load_object("/a"), load_object("/box")); tell_object(this_object(), "/rec"->told() + "\n"); return 1; }
--- /thing.c
void create() { enable_commands(); }
void init() { "/rec"->add(object_name() + ":" + object_name(this_player()) + " "); }
--- play
connect 1
end
--- written
to 1: "/box:/a /a:/box \n"
end

=== calls_end_where_the_item_leaves
# What is left of them is not made once the item is there no longer.
--- /a.c
inherit "/thing";
--- /b.c
inherit "/thing";
--- /hall.c
void init() { "/rec"->add(object_name() + ":" + object_name(this_player()) + " "); }
--- /rec.c
string all;
void create() { all = ""; }
void add(string s) { all += s; }
string told() { return all; }
--- /room.c
void init() {
  "/rec"->add(object_name() + ":" + object_name(this_player()) + " ");
  if (object_name(this_player()) == "/b") move_object(this_player(), "/hall");
}
--- /secure/master.c
object connect() { return this_object(); }
int logon() { move_object(load_object("/a"), "/room"); move_object(load_object("/b"), "/room"); tell_object(this_object(), "/rec"->told() + object_name(environment(load_object("/b"))) + "\n"); return 1; }
--- /thing.c
void create() { enable_commands(); }
void init() { "/rec"->add(object_name() + ":" + object_name(this_player()) + " "); }
--- play
connect 1
end
--- written
to 1: "/room:/a /room:/b /hall:/b /hall\n"
end

=== player_is_as_before
# `this_player()` is as before after a move.
--- /mob.c
void create() { enable_commands(); }
void catch_tell(string s) { "/secure/master"->note(s); }
void go() { move_object(this_object(), "/room"); }
--- /room.c
void init() { write("in " + object_name(this_player()) + "\n"); }
--- /secure/master.c
object connect() { return this_object(); }
int logon() { load_object("/mob"); enable_commands(); "/mob"->go(); write(object_name(this_player()) + "\n"); return 1; }
void note(string s) { tell_object(this_object(), "mob: " + s); }
--- play
connect 1
end
--- written
to 1: "mob: in /mob\n"
      "/secure/master\n"
end

=== who_has_left_has_its_calls
# Who was there when the item came has its calls also where it has left meanwhile.
--- /a.c
inherit "/thing";
--- /b.c
void create() { enable_commands(); }
void init() {
  "/rec"->add(object_name() + ":" + object_name(this_player()) + " ");
  if (object_name(this_player()) == "/c") move_object(load_object("/a"), "/hall");
}
--- /c.c
inherit "/thing";
--- /hall.c
--- /rec.c
string all;
void create() { all = ""; }
void add(string s) { all += s; }
string told() { return all; }
--- /room.c
void init() { "/rec"->add(object_name() + ":" + object_name(this_player()) + " "); }
--- /secure/master.c
object connect() { return this_object(); }
int logon() {
  move_object(load_object("/a"), "/room"); move_object(load_object("/b"), "/room"); move_object(load_object("/c"), "/room");
  tell_object(this_object(), "/rec"->told() + object_name(environment(load_object("/a"))) + "\n"); return 1;
}
--- /thing.c
void create() { enable_commands(); }
void init() { "/rec"->add(object_name() + ":" + object_name(this_player()) + " "); }
--- play
connect 1
end
--- written
to 1: "/room:/a /room:/b /b:/a /a:/b /room:/c /c:/b /b:/c /c:/a /a:/c /hall\n"
end

=== who_ended_has_none
# Who ended meanwhile has none, and the others have theirs.
--- /a.c
inherit "/thing";
--- /b.c
void create() { enable_commands(); }
void init() {
  "/rec"->add(object_name() + ":" + object_name(this_player()) + " ");
  if (object_name(this_player()) == "/d") { destruct(load_object("/a")); destruct(this_object()); }
}
--- /c.c
inherit "/thing";
--- /d.c
inherit "/thing";
--- /rec.c
string all;
void create() { all = ""; }
void add(string s) { all += s; }
string told() { return all; }
--- /room.c
void init() { "/rec"->add(object_name() + ":" + object_name(this_player()) + " "); }
--- /secure/master.c
object connect() { return this_object(); }
int logon() {
  move_object(load_object("/c"), "/room"); move_object(load_object("/a"), "/room"); move_object(load_object("/b"), "/room");
  "/rec"->add("then "); move_object(load_object("/d"), "/room");
  tell_object(this_object(), "/rec"->told() + "\n"); return 1;
}
--- /thing.c
void create() { enable_commands(); }
void init() { "/rec"->add(object_name() + ":" + object_name(this_player()) + " "); }
--- play
connect 1
end
--- written
to 1: "/room:/c /room:/a /a:/c /c:/a /room:/b /b:/a /a:/b /b:/c /c:/b then /room:/d /d:/b /b:/d /d:/c /c:/d \n"
end

=== item_or_place_ends
# Where the item ends, or its place does, nothing more is called.
--- /a.c
inherit "/thing";
--- /b.c
inherit "/thing";
--- /c.c
inherit "/thing";
--- /rec.c
string all;
void create() { all = ""; }
void add(string s) { all += s; }
string told() { return all; }
--- /room.c
void init() {
  "/rec"->add(object_name() + ":" + object_name(this_player()) + " ");
  if (object_name(this_player()) == "/c") destruct(this_object());
  else if (object_name(this_player()) == "/b") destruct(this_player());
}
--- /secure/master.c
object connect() { return this_object(); }
int logon() {
  object c = load_object("/c");
  move_object(load_object("/a"), "/room"); move_object(load_object("/b"), "/room"); move_object(c, "/room");
  tell_object(this_object(), "/rec"->told() + environment(c) + "\n"); return 1;
}
--- /thing.c
void create() { enable_commands(); }
void init() { "/rec"->add(object_name() + ":" + object_name(this_player()) + " "); }
--- play
connect 1
end
--- written
to 1: "/room:/a /room:/b /room:/c 0\n"
end

=== who_is_not_living
# What is not living is nobody's player, and has calls for the living ones.
--- /coin.c
void init() { "/rec"->add(object_name() + ":" + object_name(this_player()) + " "); }
--- /dog.c
inherit "/thing";
--- /man.c
inherit "/thing";
--- /rec.c
string all;
void create() { all = ""; }
void add(string s) { all += s; }
string told() { return all; }
--- /room.c
void init() { "/rec"->add(object_name() + ":" + object_name(this_player()) + " "); }
--- /secure/master.c
object connect() { return this_object(); }
int logon() {
  move_object(load_object("/stone"), "/room"); move_object(load_object("/dog"), "/room");
  "/rec"->add("coin: "); move_object(load_object("/coin"), "/room");
  "/rec"->add("man: "); move_object(load_object("/man"), "/room");
  "/rec"->add("carried: "); move_object(load_object("/coin"), "/man");
  tell_object(this_object(), "/rec"->told() + "\n"); return 1;
}
--- /stone.c
void init() { "/rec"->add(object_name() + ":" + object_name(this_player()) + " "); }
--- /thing.c
void create() { enable_commands(); }
void init() { "/rec"->add(object_name() + ":" + object_name(this_player()) + " "); }
--- play
connect 1
end
--- written
to 1: "/room:/dog /stone:/dog coin: /coin:/dog man: /room:/man /coin:/man /man:/dog /dog:/man /stone:/man carried: /coin:/man \n"
end

=== comes_again_where_it_is
# Who comes where it is already comes again.
--- /a.c
inherit "/thing";
--- /b.c
inherit "/thing";
--- /rec.c
string all;
void create() { all = ""; }
void add(string s) { all += s; }
string told() { return all; }
--- /room.c
void init() { "/rec"->add(object_name() + ":" + object_name(this_player()) + " "); }
--- /secure/master.c
object connect() { return this_object(); }
int logon() {
  move_object(load_object("/a"), "/room"); move_object(load_object("/b"), "/room");
  "/rec"->add("again: "); move_object(load_object("/a"), "/room");
  tell_object(this_object(), "/rec"->told() + object_name(first_inventory(load_object("/room"))) + "\n"); return 1;
}
--- /thing.c
void create() { enable_commands(); }
void init() { "/rec"->add(object_name() + ":" + object_name(this_player()) + " "); }
--- play
connect 1
end
--- written
to 1: "/room:/a /room:/b /b:/a /a:/b again: /room:/a /a:/b /b:/a /a\n"
end

=== each_way_an_init_ends
# In whichever way an `init` ends, `this_player()` and the command are as before; an error goes to who moves, and the item is there.
--- /hall.c
--- /m.c
void live() { enable_commands(); }
--- /mob.c
void live() { enable_commands(); }
--- /room.c
string how;
void set(string s) { how = s; }
void init() {
  switch (how) {
    case "bad": 1 / 0;
    case "toss": throw("t");
    case "turn": "/m"->live(); break;
    case "die": destruct(this_player()); break;
    case "end": destruct(this_object()); break;
    case "on": move_object(this_player(), "/hall"); break;
  }
}
--- /secure/master.c
object *mobs = ({ });
object connect() { return this_object(); }
int logon() {
  int i;
  for (i = 0; i < 7; i++) { mobs += ({ clone_object("/mob") }); mobs[i]->live(); }
  enable_commands(); add_action("go", "go"); return 1;
}
int go(string s) {
  object mob = mobs[0], place;
  mobs = mobs[1..]; "/room"->set(s);
  write(catch(move_object(mob, "/room")) + "," + object_name(this_player()) + "," + query_verb());
  if (mob) place = environment(mob);
  write("," + (place ? object_name(place) : "nowhere") + "\n"); return 1;
}
--- play
connect 1
line 1: go yes
line 1: go bad
line 1: go toss
line 1: go turn
line 1: go die
line 1: go end
line 1: go on
end
--- written
to 1: "0,/secure/master,go,/room\n"
to 1: "*Division by zero\n"
      ",/secure/master,go,/room\n"
to 1: "t,/secure/master,go,/room\n"
to 1: "0,/secure/master,go,/room\n"
to 1: "0,/secure/master,go,nowhere\n"
to 1: "0,/secure/master,go,nowhere\n"
to 1: "0,/secure/master,go,/hall\n"
end

=== error_ends_the_command
# An error in an `init` that nobody catches ends the command, and what is left is not called.
--- /a.c
inherit "/thing";
--- /rec.c
string all;
void create() { all = ""; }
void add(string s) { all += s; }
string told() { return all; }
--- /room.c
void init() { "/rec"->add("room "); 1 / 0; }
--- /secure/master.c
object connect() { return this_object(); }
int logon() { enable_commands(); add_action("go", "go"); add_action("show", "show"); return 1; }
int go(string s) { move_object(this_object(), "/room"); write("after\n"); return 1; }
int show(string s) { write("/rec"->told() + object_name(environment()) + "\n"); return 1; }
--- /thing.c
void create() { enable_commands(); }
void init() { "/rec"->add(object_name() + ":" + object_name(this_player()) + " "); }
--- play
connect 1
line 1: go
line 1: show
end
--- written
log: "error: Division by zero [init of /room, object /room]"
to 1: "Your sensitive mind notices a wrongness in the fabric of space.\n"
to 1: "room /room\n"
end

=== spent_budget_ends_the_command
# A budget that is spent in an `init` ends the command, whoever catches; the item is there.
--- /room.c
int n;
void init() { while (!n || n) n = 1; }
--- /secure/master.c
object connect() { return this_object(); }
int logon() { enable_commands(); add_action("go", "go"); add_action("show", "show"); return 1; }
int go(string s) { catch(move_object(this_object(), "/room")); write("after\n"); return 1; }
int show(string s) { write(object_name(environment()) + object_name(this_player()) + "\n"); return 1; }
--- play
connect 1
line 1: go
line 1: show
end
--- written
log: "error: Too long evaluation. Execution aborted. [init of /room, object /room]"
to 1: "Your sensitive mind notices a wrongness in the fabric of space.\n"
to 1: "/room/secure/master\n"
end
