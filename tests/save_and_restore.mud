# Variables are saved and restored: which, as which text, what is shared, and what a faulty text does; also where the object and its program go
# out of memory between.
--- /a.c
// A saved variable on either side of one that is not.
mixed v;
nosave mixed s;
mixed w;
void create() { v = 7; s = 8; w = "ab"; }
mixed saves(string path) { return save_object(path); }
mixed restores(string path) { mixed error, value; error = catch(value = restore_object(path)); return error ? error : value + "\n"; }
mixed item(int n) { return w[n]; }
mixed whole() { return w; }
string told() { return sprintf("%O %O %O\n", v, s, w); }
--- /secure/master.c
// Each line does the same once more. RESET begins anew.
#define RESET destruct(find_object("/a")); a = load_object("/a");
object a, b;
int valid_read() { return 1; }
int valid_write() { return 1; }
void put(string path, string text) { rm(path); write_file(path, text); }
object connect() { a = load_object("/a"); b = clone_object("/a"); return this_object(); }
int logon() { enable_commands(); add_action("go", "go"); add_action("touch", "touch"); return 1; }
int touch(string s) { b->told(); return 1; }
int go(string s) { @@ return 1; }
--- play
connect 1
line 1: go
end

=== saved_variables_become_a_file
# In place of the one that was there. The others are not saved, and no variable changes; it makes no difference whether the object and its
# program are in memory, or out, or one of them.
code: put("/data/m.o", "old\n"); write(a->saves("/data/m")); write("\n" + read_file("/data/m.o") + a->told());
--- play
connect 1
line 1: go
swap /a
line 1: go
swap /a
line 1: touch
line 1: go
swap /a#1
line 1: go
end
--- written
to 1: "0\n#2:0\nv 7\nw \"ab\"\n7 8 \"ab\"\n"
to 1: "0\n#2:0\nv 7\nw \"ab\"\n7 8 \"ab\"\n"
to 1: "0\n#2:0\nv 7\nw \"ab\"\n7 8 \"ab\"\n"
to 1: "0\n#2:0\nv 7\nw \"ab\"\n7 8 \"ab\"\n"
end

=== variables_come_from_a_file
# Those that are saved and have a line get its value, whatever the order; the others keep theirs.
code: RESET put("/data/m.o", "#2:0\nw 3\ns 2\nv 1\n"); write(a->restores("/data/m") + a->told());
code: RESET put("/data/m.o", "#2:0\nw 3\n"); write(a->restores("/data/m") + a->told());
gives: "1\n1 8 3\n1\n7 8 3\n"

=== restored_to_what_was_out
# The object and its program come back first.
code: put("/data/m.o", "#2:0\nw 3\ns 2\nv 1\n"); write(a->restores("/data/m") + a->told());
--- play
connect 1
swap /a
line 1: go
swap /a
line 1: touch
line 1: go
swap /a#1
line 1: go
end
--- written
to 1: "1\n1 8 3\n"
to 1: "1\n1 8 3\n"
to 1: "1\n1 8 3\n"
end

=== what_is_restored_is_saved_as_it_was
# The ends of 64 bits, signs in texts, arrays and mappings that are shared, that are equal and not shared, and that hold themselves. Each text
# is that of the file, and of the one that is saved then.
code: string *texts, text;
code: texts = ({
code:   "#2:0\nv -9223372036854775808\nw \"a\\n\\r\\t\\\\\\\"é\"\n",
code:   "#2:0\nv ({<1>=({0,}),<1>,})\nw <1>\n",
code:   "#2:0\nv ({({0,}),({0,}),})\nw ({})\n",
code:   "#2:0\nv <1>=({<1>,})\nw <1>\n",
code:   "#2:0\nv ({<1>=({<2>=({<2>,}),5,}),<2>,<1>,})\nw <2>\n",
code:   "#2:0\nv <1>=([1:<1>,\"a\":<2>=({<1>,}),<2>:([]),])\nw <2>\n",
code: });
code: foreach (text : texts) {
code:   RESET put("/data/m.o", text);
code:   write(a->restores("/data/m") + a->saves("/data/n") + "\n" + read_file("/data/n.o") + (read_file("/data/m.o") == text) + "\n");
code: }
gives: "1\n0\n#2:0\nv -9223372036854775808\nw \"a\\n\\r\\t\\\\\\\"é\"\n1\n"
       "1\n0\n#2:0\nv ({<1>=({0,}),<1>,})\nw <1>\n1\n"
       "1\n0\n#2:0\nv ({({0,}),({0,}),})\nw ({})\n1\n"
       "1\n0\n#2:0\nv <1>=({<1>,})\nw <1>\n1\n"
       "1\n0\n#2:0\nv ({<1>=({<2>=({<2>,}),5,}),<2>,<1>,})\nw <2>\n1\n"
       "1\n0\n#2:0\nv <1>=([1:<1>,\"a\":<2>=({<1>,}),<2>:([]),])\nw <2>\n1\n"

=== what_the_texts_stand_for
# The signs of a text, an array that is one with another, and one that holds itself.
code: put("/data/m.o", "#2:0\nv \"a\\n\\r\\t\\\\\\\"é\"\nw ({<1>=({0,}),<1>,({0,}),})\n"); a->restores("/data/m"); write(a->told());
code: write((a->item(0) == a->item(1)) + (a->item(1) == a->item(2)) * 10 + "\n");
code: put("/data/m.o", "#2:0\nv <1>=({<1>,})\nw <1>\n"); a->restores("/data/m"); write(a->told() + (a->item(0) == a->whole()) + "\n");
gives: "\"a\\n\x0d\t\\\\\\\"é\" 8 ({ ({ 0 }), ({ 0 }), ({ 0 }) })\n1\n({ <...> }) 8 ({ <...> })\n1\n"

=== saved_after_it_was_out
# What was restored goes out and comes back before it is saved; what is shared stays so.
code: if (s == "in") { put("/data/m.o", read_file("/doc/text")); write(a->restores("/data/m")); }
code: else { write(a->saves("/data/n") + "\n" + read_file("/data/n.o") + (read_file("/data/n.o") == read_file("/doc/text")) + "\n"); }
--- /doc/text "#2:0\nv <1>=([1:<1>,\"a\":<2>=({<1>,}),<2>:([]),])\nw <2>\n"
--- play
connect 1
line 1: go in
swap /a
line 1: go out
swap /a
line 1: touch
line 1: go out
swap /a#1
line 1: go out
end
--- written
to 1: "1\n"
to 1: "0\n#2:0\nv <1>=([1:<1>,\"a\":<2>=({<1>,}),<2>:([]),])\nw <2>\n1\n"
to 1: "0\n#2:0\nv <1>=([1:<1>,\"a\":<2>=({<1>,}),<2>:([]),])\nw <2>\n1\n"
to 1: "0\n#2:0\nv <1>=([1:<1>,\"a\":<2>=({<1>,}),<2>:([]),])\nw <2>\n1\n"
end

=== a_faulty_line_changes_nothing
# Also one behind others that are not faulty. The line and the path are told.
code: put("/data/m.o", "#2:0\nv 1\nw \"ab\n"); write(a->restores("/data/m") + a->told());
--- play
connect 1
line 1: go
swap /a
line 1: go
swap /a
line 1: touch
line 1: go
swap /a#1
line 1: go
end
--- written
to 1: "*Illegal save text in /data/m.o line 3\n7 8 \"ab\"\n"
to 1: "*Illegal save text in /data/m.o line 3\n7 8 \"ab\"\n"
to 1: "*Illegal save text in /data/m.o line 3\n7 8 \"ab\"\n"
to 1: "*Illegal save text in /data/m.o line 3\n7 8 \"ab\"\n"
end

=== every_cut
# So many first bytes of a text: none, the first line and the whole are restored, and all others change nothing.
code: string text; int n; text = "#2:0\nv ({1,\"a\",})\n";
code: for (n = 0; n <= strlen(text); n++) { RESET put("/data/m.o", text[0..n - 1]); write(n + " " + a->restores("/data/m") + a->told()); }
gives: "0 1\n7 8 \"ab\"\n"
       "1 *Illegal save text in /data/m.o line 1\n7 8 \"ab\"\n"
       "2 *Illegal save text in /data/m.o line 1\n7 8 \"ab\"\n"
       "3 *Illegal save text in /data/m.o line 1\n7 8 \"ab\"\n"
       "4 *Illegal save text in /data/m.o line 1\n7 8 \"ab\"\n"
       "5 1\n7 8 \"ab\"\n"
       "6 *Illegal save text in /data/m.o line 2\n7 8 \"ab\"\n"
       "7 *Illegal save text in /data/m.o line 2\n7 8 \"ab\"\n"
       "8 *Illegal save text in /data/m.o line 2\n7 8 \"ab\"\n"
       "9 *Illegal save text in /data/m.o line 2\n7 8 \"ab\"\n"
       "10 *Illegal save text in /data/m.o line 2\n7 8 \"ab\"\n"
       "11 *Illegal save text in /data/m.o line 2\n7 8 \"ab\"\n"
       "12 *Illegal save text in /data/m.o line 2\n7 8 \"ab\"\n"
       "13 *Illegal save text in /data/m.o line 2\n7 8 \"ab\"\n"
       "14 *Illegal save text in /data/m.o line 2\n7 8 \"ab\"\n"
       "15 *Illegal save text in /data/m.o line 2\n7 8 \"ab\"\n"
       "16 *Illegal save text in /data/m.o line 2\n7 8 \"ab\"\n"
       "17 *Illegal save text in /data/m.o line 2\n7 8 \"ab\"\n"
       "18 1\n({ 1, \"a\" }) 8 \"ab\"\n"

=== nothing_is_restored
# Where there is no file.
code: write(a->restores("/data/m") + a->told());
gives: "0\n7 8 \"ab\"\n"

=== an_object_that_ends_as_it_asks
# Its function goes on, and its variables are restored nevertheless.
--- /a.c
mixed v;
mixed restores(string path) { int n; v = 7; n = restore_object(path); return n + " " + v + " " + (this_object() == 0) + "\n"; }
--- /data/m.o "#2:0\nv 1\n"
--- /secure/master.c
object a;
int valid_read() { destruct(a); return 1; }
object connect() { a = load_object("/a"); return this_object(); }
int logon() { write(a->restores("/data/m")); return 1; }
--- play
connect 1
end
--- written
to 1: "1 1 1\n"
end

=== the_object_cannot_come_back
# A read of the swap file fails: the run ends with what was written before.
status: 7
swap reads fail: 1
code: write(a->saves("/data/m"));
--- play
connect 1
line 1: go
swap /a
line 1: go
end
--- written
to 1: "0"

=== its_program_cannot_come_back
# It is read after the object.
status: 7
swap reads fail: 2
code: write(a->saves("/data/m"));
--- play
connect 1
line 1: go
swap /a
line 1: go
end
--- written
to 1: "0"
