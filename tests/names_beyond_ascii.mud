# Names with letters beyond ASCII. No file has such a path, so that what is loaded, cloned, called, moved to or inherited by such a name is missing, as a name
# of ASCII is of which there is no file.

=== loads_clones_calls_and_moves
# Each tells the missing file, and the error goes to the caller. Nothing of that name is there, before or afterwards.
--- /secure/master.c
object connect() { return this_object(); }
int logon() {
  write(catch(load_object("/é")));
  write(catch(clone_object("/é")));
  write(catch("/é"->f()));
  write(catch(call_other("é.c", "f", 1)));
  write(catch(move_object(this_object(), "/é")));
  write(find_object("/é") ? "found\n" : "0\n");
  return 1;
}
--- play
connect 1
end
--- written
log: "/é.c line 0: no such file"
to 1: "*Could not load /é\n"
log: "/é.c line 0: no such file"
to 1: "*Could not load /é\n"
log: "/é.c line 0: no such file"
to 1: "*Could not load /é\n"
log: "/é.c line 0: no such file"
to 1: "*Could not load /é\n"
log: "/é.c line 0: no such file"
to 1: "*Could not load /é\n0\n"
end

=== a_player_goes_there
# A command of a player names it. The player is told, and the game goes on.
--- /secure/master.c
object connect() { return clone_object("/player"); }
--- /player.c
int logon() { enable_commands(); add_action("go", "goto"); return 1; }
int go(string where) {
  string fault;
  fault = catch(move_object(this_object(), where));
  write(fault ? "There is no way to " + where + ".\n" : "You go.\n");
  return 1;
}
--- /room.c
int rooms;
--- play
connect 1
line 1: goto /é
line 1: goto /日本
line 1: goto /room
end
--- written
log: "/é.c line 0: no such file"
to 1: "There is no way to /é.\n"
log: "/日本.c line 0: no such file"
to 1: "There is no way to /日本.\n"
to 1: "You go.\n"
end

=== parents
# A file that inherits it is loaded as one whose parent is missing is.
--- /secure/master.c
object connect() { return this_object(); }
int logon() { write(catch(load_object("/child"))); write(catch("/child"->f())); return 1; }
--- /child.c
inherit "/é";
int f() { return 1; }
--- play
connect 1
end
--- written
log: "/é.c line 0: no such file"
to 1: "*Could not load /é\n"
log: "/é.c line 0: no such file"
to 1: "*Could not load /é\n"
end

=== object_of_simul_efuns
# The object of simul efuns has such a name: it is missing at the start, and at each load, which asks for it first.
--- /secure/master.c
string get_simul_efun() { return "/é"; }
object connect() { return clone_object("/player"); }
--- /player.c
int logon() { write(strlen("abc") + "\n"); return 1; }
--- play
connect 1
end
--- written
log: "/é.c line 0: no such file"
log: "error: Could not load /é"
log: "/é.c line 0: no such file"
log: "error: Could not load /é [connect of /secure/master, object /secure/master]"
close 1
end
