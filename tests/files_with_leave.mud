# The efuns on files, with the master's leave.

=== path_that_the_master_answers
# A text that the master answers is the path to use.
--- /a.txt "ay"
--- /b.txt "bee"
--- /secure/master.c
string valid_read() { return "/b.txt"; }
object connect() { return this_object(); }
int logon() { write(read_file("/a.txt")); return 1; }
--- play
connect 1
end
--- written
to 1: "bee"
end

=== no_valid_write
# Without the function `valid_write` nothing is written.
--- /a.txt "ay"
--- /secure/master.c
int valid_read() { return 1; }
object connect() { return this_object(); }
int logon() { write(write_file("/a.txt", "x") + read_file("/a.txt")); return 1; }
--- play
connect 1
end
--- written
to 1: "0ay"
end

=== write_append_size_and_remove
# A write goes behind what is there; sizes count bytes; what is removed is not there.
--- /a.txt "ay"
--- /secure/master.c
object connect() { return this_object(); }
int valid_read(string p, int z, string f, object o) { return 1; }
int valid_write(string p, int z, string f, object o) { return 1; }
int logon() {
  write(file_size("/a.txt") + "," + file_size("/b.txt") + "\n");
  write(write_file("/a.txt", "é!") + write_file("/b.txt", "new") + "\n");
  write(read_file("/a.txt") + read_file("/b.txt") + file_size("/a.txt") + "\n");
  write(rm("/a.txt") + "," + rm("/a.txt") + "," + file_size("/a.txt") + "," + read_file("/a.txt") + "\n");
  return 1;
}
--- play
connect 1
end
--- written
to 1: "2,-1\n"
      "2\n"
      "ayé!new5\n"
      "1,0,-1,0\n"
end

=== what_the_master_is_asked
# The master is asked with the path, 0, the efun and the object.
--- /o.c
void go() { read_file("/x/y"); write_file("/z", ""); rm("/q"); file_size("/s"); }
--- /secure/master.c
object connect() { return this_object(); }
int valid_read(string p, int z, string f, object o) { tell_object(this_object(), "r" + p + z + f + object_name(o) + "\n"); return 0; }
int valid_write(string p, int z, string f, object o) { tell_object(this_object(), "w" + p + z + f + object_name(o) + "\n"); return 0; }
int logon() { "/o"->go(); return 1; }
--- play
connect 1
end
--- written
to 1: "r/x/y0read_file/o\n"
      "w/z0write_file/o\n"
      "w/q0rm/o\n"
      "r/s0file_size/o\n"
end

=== text_too_long_to_read
# A text of more code points than a text may have is not read.
--- /secure/master.c
int valid_read() { return 1; } int valid_write() { return 1; }
object connect() { return this_object(); }
int logon() {
  string s = "0123456789"; int i;
  for (i = 0; i < 13; i++) s += s;
  write_file("/a", s); write(strlen(read_file("/a")) + ","); write_file("/a", s); write(file_size("/a") + "," + read_file("/a") + "\n"); return 1;
}
--- play
connect 1
end
--- written
to 1: "81920,163840,0\n"
end

=== empty_text
# An empty text makes a file, which has an empty text.
--- /secure/master.c
int valid_read() { return 1; } int valid_write() { return 1; }
object connect() { return this_object(); }
int logon() { write(sprintf("%d%d%d%O", file_size("/a"), write_file("/a", ""), file_size("/a"), read_file("/a"))); return 1; }
--- play
connect 1
end
--- written
to 1: "-110\"\""
end

=== program_that_is_written
# What is written may be a program; what is removed is loaded no more.
--- /secure/master.c
int valid_read() { return 1; } int valid_write() { return 1; }
object connect() { return this_object(); }
int logon() {
  write_file("/p.c", "int f() { return 7; }\n"); write("/p"->f() + ","); rm("/p.c"); write_file("/p.c", "int f() { return 8; }\n"); write("/p"->f() + ",");
  destruct(load_object("/p")); write("/p"->f() + "\n"); rm("/p.c"); destruct(load_object("/p")); write(catch(load_object("/p"))); return 1;
}
--- play
connect 1
end
--- written
to 1: "7,7,8\n"
log: "/p.c line 0: no such file"
to 1: "*Could not load /p\n"
end

=== destructed_object_asks_as_0
# A destructed object asks as 0.
--- /a.txt "ay"
--- /o.c
string go() { destruct(this_object()); return read_file("/a.txt") + write_file("/b.txt", "bee"); }
--- /secure/master.c
object connect() { return this_object(); }
int valid_read(string p, int z, string f, object o) { tell_object(this_object(), f + o + "\n"); return 1; }
int valid_write(string p, int z, string f, object o) { tell_object(this_object(), f + o + "\n"); return 1; }
int logon() { write("/o"->go() + "\n"); return 1; }
--- play
connect 1
end
--- written
to 1: "read_file0\n"
      "write_file0\n"
      "ay1\n"
end
