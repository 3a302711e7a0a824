# Which paths there are, and what the master's answers do.

=== what_is_a_path
# A path has parts, each behind a `/`, of some letters, and at most 256 letters. One that is none is refused, and the master is not asked.
--- /secure/master.c
object connect() { return this_object(); }
int asked;
int valid_read() { asked++; return 1; } int valid_write() { asked++; return 1; }
string long(int n) { string s = ""; while (strlen(s) < n - 1) s += "x"; return "/" + s; }
int logon() {
  string *paths = ({ "", "a", "/", "//a", "/a/", "/a b", "/a/./b", "/a/..", "/../a", "/é", "/a#1", "a.txt", long(257) });
  foreach (string p : paths) write(read_file(p) + "" + file_size(p) + write_file(p, "x") + rm(p) + " ");
  write(asked + "\n"); paths = ({ "/a", "/a.b/-/_9", "/...", "/.a", long(256) });
  foreach (string p : paths) write(write_file(p, "x") + read_file(p) + file_size(p) + rm(p) + " ");
  write(asked + "\n"); return 1;
}
--- play
connect 1
end
--- written
to 1: "0-100 0-100 0-100 0-100 0-100 0-100 0-100 0-100 0-100 0-100 0-100 0-100 0-100 0\n"
      "1x11 1x11 1x11 1x11 1x11 20\n"
end

=== path_of_a_saved_object
# So it is with the path of a saved object, which ends in `.o`.
--- /secure/master.c
object connect() { return this_object(); }
int valid_read(string p) { tell_object(this_object(), "r" + p + " "); return 1; }
int valid_write(string p) { tell_object(this_object(), "w" + p + " "); return 1; }
string long(int n) { string s = ""; while (strlen(s) < n - 1) s += "x"; return "/" + s; }
int logon() {
  write(save_object("") + restore_object("") + "\n"); write(save_object("/") + restore_object("/") + "\n"); write(save_object("/a.c") + restore_object("/a.o") + "\n");
  write(save_object(long(255)) + restore_object(long(255)) + "\n"); return 1;
}
--- play
connect 1
end
--- written
to 1: "1\n"
      "w/.o r/.o 1\n"
      "w/a.c.o r/a.o.o 0\n"
      "1\n"
end

=== each_answer_to_a_read
# Of what the master answers 0, what reads as 0 and a text that is no path refuse; a path is that to use; all else allows.
--- /array "x"
--- /b "bee"
--- /bare "x"
--- /c.c
--- /dead "x"
--- /empty "x"
--- /minus "x"
--- /nowhere "x"
--- /object "x"
--- /other "x"
--- /secure/master.c
object connect() { return this_object(); }
mixed answer(string p) {
  object dead;
  switch (p) {
    case "/zero": return 0;
    case "/dead": dead = clone_object("/c"); destruct(dead); return dead;
    case "/nowhere": return "/no where";
    case "/up": return "/a/../b";
    case "/empty": return "";
    case "/bare": return "b";
    case "/minus": return -1;
    case "/array": return ({ });
    case "/object": return this_object();
    case "/other": return "/b";
  }
  return 1;
}
mixed valid_read(string p) { return answer(p); }
int logon() {
  foreach (string p : ({ "/zero", "/dead", "/nowhere", "/up", "/empty", "/bare", "/minus", "/array", "/object", "/other", "/b" })) write(read_file(p) + "," + file_size(p) + " ");
  return 1;
}
--- /up "x"
--- /zero "x"
--- play
connect 1
end
--- written
to 1: "0,-1 0,-1 0,-1 0,-1 0,-1 0,-1 x,1 x,1 x,1 bee,3 bee,3 "
end

=== each_answer_to_a_write
# So it is with leave to write, and to remove.
--- /array "x"
--- /b "bee"
--- /bare "x"
--- /c.c
--- /dead "x"
--- /empty "x"
--- /minus "x"
--- /nowhere "x"
--- /object "x"
--- /other "x"
--- /secure/master.c
object connect() { return this_object(); }
mixed answer(string p) {
  object dead;
  switch (p) {
    case "/zero": return 0;
    case "/dead": dead = clone_object("/c"); destruct(dead); return dead;
    case "/nowhere": return "/no where";
    case "/up": return "/a/../b";
    case "/empty": return "";
    case "/bare": return "b";
    case "/minus": return -1;
    case "/array": return ({ });
    case "/object": return this_object();
    case "/other": return "/b";
  }
  return 1;
}
mixed valid_write(string p) { return answer(p); }
int valid_read() { return 1; }
int logon() {
  foreach (string p : ({ "/zero", "/dead", "/nowhere", "/up", "/empty", "/bare", "/minus", "/array", "/object", "/other" })) write(write_file(p, "y") + read_file(p) + rm(p) + read_file(p) + " ");
  write(read_file("/b") + "\n"); return 1;
}
--- /up "x"
--- /zero "x"
--- play
connect 1
end
--- written
to 1: "0x0x 0x0x 0x0x 0x0x 0x0x 0x0x 1xy10 1xy10 1xy10 1x1x 0\n"
end

=== saved_where_the_master_says
# An object is saved and restored where the master says, and a fault is told with that path.
--- /data/bad.o
v 1
v 2 2
--- /secure/master.c
mixed *v;
string where;
string valid_write(string p) { return "/w" + p; }
string valid_read(string p) { return where; }
object connect() { return this_object(); }
int logon() {
  v = ({ 1 }); write(save_object("/m") + "\n"); where = "/m.o"; write(restore_object("/m") + ","); where = "/w/m.o"; v = 0; write(restore_object("/none") + "," + v[0] + "\n");
  where = "/data/bad.o"; write(catch(restore_object("/m")) + read_file("/m.o")); return 1;
}
--- play
connect 1
end
--- written
to 1: "0\n"
      "0,1,1\n"
      "*Illegal save text in /data/bad.o line 2\n"
      "v 1\n"
      "v 2 2\n"
end

=== error_of_the_master
# An error of the master goes to who asked.
--- /a "ay"
--- /secure/master.c
object connect() { return this_object(); }
int valid_read() { return 1 / 0; }
int valid_write() { throw("no"); }
int logon() { write(catch(read_file("/a")) + catch(rm("/a")) + "\n"); file_size("/a"); write("after\n"); return 1; }
--- play
connect 1
end
--- written
to 1: "*Division by zero\n"
      "no\n"
log: "error: Division by zero [valid_read of /secure/master, object /secure/master]"
to 1: "Your sensitive mind notices a wrongness in the fabric of space.\n"
close 1
end

=== master_that_does_not_live
# A master that does not live is loaded first, for who asks: what its file has by then counts, and its faults go to who asks.
--- /a "ay"
--- /player.c
int logon() { enable_commands(); add_action("end", "end"); add_action("read", "read"); return 1; }
int end(string s) { destruct(load_object("/secure/master")); return 1; }
int read(string s) { mixed e, t; e = catch(t = read_file("/a")); write(e + "," + t + "\n"); return 1; }
--- /secure/master.c
object connect() { return clone_object("/player"); }
void create() { write("up\n"); }
int valid_read() { return 1; }
--- play
connect 1
line 1: read
line 1: end
line 1: read
--- reload /secure/master.c
int valid_read( {
--- play
line 1: read
--- reload /secure/master.c
void create() { destruct(this_object()); }
int valid_read() { return 1; }
--- play
line 1: read
--- reload /secure/master.c
void create() { 1 / 0; }
int valid_read() { return 1; }
--- play
line 1: read
line 1: read
end
--- written
log: "up\n"
to 1: "0,ay\n"
to 1: "up\n"
      "0,ay\n"
log: "/secure/master.c line 1: unexpected token"
to 1: "*Could not load /secure/master\n"
      ",0\n"
to 1: "0,0\n"
to 1: "*Division by zero\n"
      ",0\n"
to 1: "0,ay\n"
end
