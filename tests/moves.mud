# What a move refuses, and what lies where afterwards.

=== nothing_into_itself
# Nothing goes into itself.
--- /room.c
void init() { write("r"); }
--- /secure/master.c
object connect() { return this_object(); }
int logon() { write(catch(move_object(load_object("/room"), "/room"))); return 1; }
--- /t.c
void init() { write("t"); }
--- play
connect 1
end
--- written
to 1: "*Would contain itself\n"
end

=== nothing_into_what_lies_in_it
# Nor into what lies in it.
--- /bag.c
--- /box.c
--- /secure/master.c
object connect() { return this_object(); }
int logon() {
  move_object(load_object("/bag"), "/box");
  write(catch(move_object(load_object("/box"), "/bag")));
  write(object_name(environment(load_object("/bag"))) + environment(load_object("/box")) + "\n"); return 1;
}
--- play
connect 1
end
--- written
to 1: "*Would contain itself\n"
      "/box0\n"
end

=== destination_that_cannot_be_loaded
# A destination that cannot be loaded is an error, and nothing moves.
--- /coin.c
--- /secure/master.c
object connect() { return this_object(); }
int logon() { write(catch(move_object(load_object("/coin"), "/none"))); write(environment(load_object("/coin"))); return 1; }
--- play
connect 1
end
--- written
log: "/none.c line 0: no such file"
to 1: "*Could not load /none\n"
      "0"
end

=== latest_lies_first
# The latest that came lies first, also what comes again.
--- /a.c
--- /b.c
--- /c.c
--- /room.c
--- /secure/master.c
object connect() { return this_object(); }
void show() { foreach (object o : all_inventory(load_object("/room"))) write(object_name(o)); write("\n"); }
int logon() {
  object room; room = load_object("/room");
  move_object(load_object("/a"), room); move_object(load_object("/b"), room); move_object(load_object("/c"), room);
  show(); move_object(load_object("/a"), room); show();
  write(object_name(first_inventory(room)) + object_name(next_inventory(load_object("/c"))) + next_inventory(load_object("/b")) + "\n");
  return 1;
}
--- play
connect 1
end
--- written
to 1: "/c/b/a\n"
      "/a/c/b\n"
      "/a/b0\n"
end

=== what_lay_in_one_that_ends_is_nowhere
# What lay in an object that ends is nowhere.
--- /box.c
--- /coin.c
--- /secure/master.c
object connect() { return this_object(); }
int logon() {
  object coin; coin = load_object("/coin"); move_object(coin, "/box"); write(object_name(environment(coin)));
  destruct(load_object("/box")); write(environment(coin)); return 1;
}
--- play
connect 1
end
--- written
to 1: "/box0"
end

=== at_any_depth
# Nothing goes into what lies in it at any depth, and what was refused lies where it did.
--- /a.c
--- /b.c
--- /c.c
--- /d.c
--- /secure/master.c
object connect() { return this_object(); }
int logon() {
  move_object(load_object("/b"), "/a"); move_object(load_object("/c"), "/b"); move_object(load_object("/d"), "/c");
  write(catch(move_object(load_object("/a"), "/d")) + catch(move_object(load_object("/b"), "/d")) + catch(move_object(load_object("/d"), "/a")));
  write(object_name(environment(load_object("/b"))) + environment(load_object("/a")) + object_name(environment(load_object("/d"))) + "\n"); return 1;
}
--- play
connect 1
end
--- written
to 1: "*Would contain itself\n"
      "*Would contain itself\n"
      "0/a0/a\n"
end

=== live_once_the_destination_is_loaded
# The item and the destination are live once the destination is loaded.
--- /coin.c
--- /eats.c
void create() { destruct(find_object("/coin")); }
--- /secure/master.c
object connect() { return this_object(); }
int logon() {
  object coin = load_object("/coin");
  write(catch(move_object(coin, "/short")) + catch(move_object(coin, "/coin#7")));
  write(catch(move_object(coin, "/eats")) + (coin == 0) + "\n");
  write(catch(move_object(coin, "/eats")) + catch(move_object(this_object(), 5)) + catch(move_object(this_object(), coin))); return 1;
}
--- /short.c
void create() { destruct(this_object()); }
--- play
connect 1
end
--- written
to 1: "*Bad target\n"
      "*Bad target\n"
      "*Bad target\n"
      "1\n"
      "*Bad argument 1 to move_object\n"
      "*Bad argument 2 to move_object\n"
      "*Bad argument 2 to move_object\n"
end

=== dead_one_moves_others_only
# A dead one moves nothing of its own, and others as before.
--- /coin.c
--- /o.c
void go() { destruct(this_object()); write(catch(move_object(this_object(), "/room"))); move_object(load_object("/coin"), "/room"); }
--- /room.c
--- /secure/master.c
object connect() { return this_object(); }
int logon() { "/o"->go(); write(object_name(environment(load_object("/coin"))) + "\n"); return 1; }
--- play
connect 1
end
--- written
to 1: "*Bad argument 1 to move_object\n"
      "/room\n"
end
