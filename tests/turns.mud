# Turns of the driver: the start, connections, lines, closings and reloads, where there is a master and where there is none.
--- /secure/master.c
object connect() { return load_object("/player"); }
void disconnect(object o, string s) {
  write(sprintf("%O %O %d %O", o, s, interactive(o), this_player()));
}
int valid_write(string path) { return 1; }
--- /player.c
int logon() {
  enable_commands(); add_action("look", "look"); add_action("leave", "leave"); add_action("quit", "quit");
  return 1;
}
int look(string s) { write(sprintf("%O %O %O %O", query_verb(), s, this_player(), this_interactive())); return 1; }
int leave(string s) { remove_interactive(this_object()); return 1; }
int quit(string s) {
  rm("/secure/master.c"); destruct(find_object("/secure/master"));
  destruct(this_object());
  return 1;
}

=== no_master
# There is no file of it: nothing starts, and nothing is written.
status: 3
--- script
"mudscript 1 0 0\nstart\nconnect 1\nend\n"
--- written

=== a_master_with_a_fault
status: 3
--- /secure/master.c
int connect( {
--- play
connect 1
end
--- written

=== a_master_whose_parent_is_not_there
status: 3
--- /secure/master.c
inherit "/none";
--- play
connect 1
end
--- written

=== a_master_whose_load_ends_without_a_fault
# The `create` of its parent spends the whole budget before the master is made. What it wrote is not written.
status: 3
--- /secure/master.c
inherit "/p";
--- /p.c
void create() { string s; write("up"); s = sprintf("%9000s", ""); while (1) s[0..0]; }
--- play
connect 1
end
--- written

=== a_master_whose_begin_fails
# It is there, and the error is logged; the game starts.
--- /secure/master.c
object connect() { return this_object(); }
int logon() { write("on"); return 1; }
void create() { write("up"); raise_error("not quite"); }
--- play
connect 1
end
--- written
log: "up"
log: "error: not quite [create of /secure/master, object /secure/master]"
to 1: "on"
end

=== a_connection_without_a_master_is_closed
# Its file is gone and it is destructed. The load that each turn asks for fails, and is told each time.
--- play
connect 3
line 3: quit
connect 4
end
--- written
close 3
log: "/secure/master.c line 0: no such file"
log: "error: Could not load /secure/master"
close 4
end

=== a_closing_without_a_master
# Nobody is told of the connection that is lost; the master that was wanted for it is told to be missing.
--- play
connect 3
--- reload /secure/master.c
int connect( {
--- play
gone 3
connect 4
end
--- written
log: "/secure/master.c line 1: unexpected token"
log: "error: Could not load /secure/master"
log: "/secure/master.c line 1: unexpected token"
log: "error: Could not load /secure/master"
close 4
end

=== a_master_is_loaded_for_nobody
# For a connection that is lost and for one that comes, and not for the player whose line was the last; and once for both.
--- play
connect 3
line 3: look
--- reload /secure/master.c
void create() { write(sprintf("up for %O", this_player())); }
object connect() { return load_object("/player"); }
--- play
gone 3
connect 4
--- reload /secure/master.c
void create() { write(sprintf("up again for %O", this_player())); }
--- play
connect 5
end
--- written
to 3: "\"look\" 0 /player /player"
log: "up for 0"
log: "up again for 0"
close 5
end

=== a_line_is_a_command
# With its verb, the rest, and the object of the connection as the player.
--- play
connect 3
line 3: look
line 3: look at it
end
--- written
to 3: "\"look\" 0 /player /player"
to 3: "\"look\" \"at it\" /player /player"
end

=== a_line_of_a_closed_connection_is_nothing
# The driver closed it; its line, its end and what would be told of it are nothing.
--- play
connect 3
line 3: leave
line 3: look
gone 3
end
--- written
close 3
end

=== a_lost_connection_is_its_objects_no_longer
# The master is told of the object and of no words, for no player; the object has no connection then, and may get the next one.
--- play
connect 3
gone 3
connect 4
line 4: look
end
--- written
log: "/player \"\" 0 0"
to 4: "\"look\" 0 /player /player"
end
