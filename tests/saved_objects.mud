# `save_object` and `restore_object`.

=== shared_stays_shared
# What is shared stays shared, and an object is 0.
--- /secure/master.c
mixed *v;
int valid_read() { return 1; } int valid_write() { return 1; }
object connect() { return this_object(); }
int logon() { mixed *x; x = ({this_object()}); v = ({x, x}); save_object("/data/m"); v = 0; restore_object("/data/m"); write(read_file("/data/m.o") + (v[0] == v[1]) + "," + v[0][0] + "\n"); return 1; }
--- play
connect 1
end
--- written
to 1: "#2:0\n"
      "v ({<1>=({0,}),<1>,})\n"
      "1,0\n"
end

=== faulty_line
# A faulty line changes nothing, and is told with its number.
--- /data/m.o
#2:0
v 7
w "ab
--- /secure/master.c
mixed *v;
int valid_read() { return 1; } int valid_write() { return 1; }
object connect() { return this_object(); }
int logon() { v = ({5}); write(catch(restore_object("/data/m"))); write(v[0]); return 1; }
--- play
connect 1
end
--- written
to 1: "*Illegal save text in /data/m.o line 3\n"
      "5"
end

=== number_of_no_part
# So is a number of a shared part that no part has.
--- /data/m.o
#2:0
v <1>
--- /secure/master.c
mixed *v;
int valid_read() { return 1; } int valid_write() { return 1; }
object connect() { return this_object(); }
int logon() { write(catch(restore_object("/data/m"))); return 1; }
--- play
connect 1
end
--- written
to 1: "*Illegal save text in /data/m.o line 2\n"
end

=== first_line_with_other_numbers
# A first line with other numbers is taken.
--- /data/m.o
#0:0
v ({1,2,})
--- /secure/master.c
mixed *v;
int valid_read() { return 1; } int valid_write() { return 1; }
object connect() { return this_object(); }
int logon() { write(restore_object("/data/m") + "," + v[1]); return 1; }
--- play
connect 1
end
--- written
to 1: "1,2"
end

=== first_line_with_others
# With others.
--- /data/m.o
#2:2
v ({1,2,})
--- /secure/master.c
mixed *v;
int valid_read() { return 1; } int valid_write() { return 1; }
object connect() { return this_object(); }
int logon() { write(restore_object("/data/m") + "," + v[1]); return 1; }
--- play
connect 1
end
--- written
to 1: "1,2"
end

=== first_line_with_none
# And none.
--- /data/m.o
v ({1,2,})
--- /secure/master.c
mixed *v;
int valid_read() { return 1; } int valid_write() { return 1; }
object connect() { return this_object(); }
int logon() { write(restore_object("/data/m") + "," + v[1]); return 1; }
--- play
connect 1
end
--- written
to 1: "1,2"
end

=== first_line_as_written
# As with the one that is written.
--- /data/m.o
#2:0
v ({1,2,})
--- /secure/master.c
mixed *v;
int valid_read() { return 1; } int valid_write() { return 1; }
object connect() { return this_object(); }
int logon() { write(restore_object("/data/m") + "," + v[1]); return 1; }
--- play
connect 1
end
--- written
to 1: "1,2"
end

=== object_without_variables
# An object without variables has that line alone.
--- /secure/master.c
int valid_read() { return 1; } int valid_write() { return 1; }
object connect() { return this_object(); }
int logon() { save_object("/data/m"); write(read_file("/data/m.o")); return 1; }
--- play
connect 1
end
--- written
to 1: "#2:0\n"
end

=== each_variable_has_a_line
# Each variable has a line, those of the parents first, in their order, each as often as its name is there; what is `nosave` or `static` has none.
--- /k.c
inherit "/p";
inherit "/q";
protected int m = 5;
mixed q = 6;
string saved() { save_object("/k"); return read_file("/k.o"); }
void again(string text) { rm("/k.o"); write_file("/k.o", text); restore_object("/k"); }
--- /p.c
int n = 1;
private int q = 2;
nosave int r = 3;
--- /q.c
string n = "two";
static int s = 4;
--- /secure/master.c
int valid_read() { return 1; } int valid_write() { return 1; }
object connect() { return this_object(); }
int logon() {
  write("/k"->saved()); "/k"->again("n 10\nq ({})\nx 1\nn \"twenty\"\nn 30\nr 8\n"); write("/k"->saved());
  "/k"->again("#1:7\nm -9\nn 0\n"); write("/k"->saved()); "/k"->again(""); write("/k"->saved()); return 1;
}
--- play
connect 1
end
--- written
to 1: "#2:0\n"
      "n 1\n"
      "q 2\n"
      "n \"two\"\n"
      "m 5\n"
      "q 6\n"
      "#2:0\n"
      "n 10\n"
      "q ({})\n"
      "n \"twenty\"\n"
      "m 5\n"
      "q 6\n"
      "#2:0\n"
      "n 0\n"
      "q ({})\n"
      "n \"twenty\"\n"
      "m -9\n"
      "q 6\n"
      "#2:0\n"
      "n 0\n"
      "q ({})\n"
      "n \"twenty\"\n"
      "m -9\n"
      "q 6\n"
end

=== shared_by_itself_and_by_variables
# What is in itself, and what stands in two variables, is so again; what was read is new.
--- /secure/master.c
int valid_read() { return 1; } int valid_write() { return 1; }
mixed a;
mapping b;
mixed c;
nosave mixed old;
object connect() { return this_object(); }
int logon() {
  a = ({ 0, ({ }) }); a[0] = a; b = ([ "a": a, 1: a[1] ]); b["b"] = b; c = a[1]; old = c;
  save_object("/m"); write(read_file("/m.o")); a = b = c = 0; restore_object("/m");
  write((a[0] == a) + "" + (b["a"] == a) + (b["b"] == b) + (b[1] == c) + (a[1] == c) + (c == old) + sizeof(b) + "\n"); return 1;
}
--- play
connect 1
end
--- written
to 1: "#2:0\n"
      "a <1>=({<1>,<2>=({}),})\n"
      "b <3>=([\"a\":<1>,1:<2>,\"b\":<3>,])\n"
      "c <2>\n"
      "1111103\n"
end

=== ended_and_living_objects
# What ended is 0 as an item or a value, and its pair is not there; what lives is 0, also as a key, of which the last is read.
--- /secure/master.c
int valid_read() { return 1; } int valid_write() { return 1; }
mixed *a;
mapping m;
object o;
object connect() { return this_object(); }
int logon() {
  object d = clone_object("/t"); o = clone_object("/t");
  a = ({ d, o, 1 }); m = ([ d: 1, o: 2, "d": d, this_object(): 3 ]); destruct(d); save_object("/m"); write(read_file("/m.o"));
  restore_object("/m"); write(sizeof(m) + "," + m[0] + "," + o + "\n"); return 1;
}
--- /t.c
--- play
connect 1
end
--- written
to 1: "#2:0\n"
      "a ({0,0,1,})\n"
      "m ([0:2,\"d\":0,0:3,])\n"
      "o 0\n"
      "2,3,0\n"
end

=== signs_and_ends_of_numbers
# A text has its signs spelled, all others stand as they are; numbers to their ends.
--- /secure/master.c
int valid_read() { return 1; } int valid_write() { return 1; }
string s;
string t;
int n;
int m;
mixed *e;
mapping f;
object connect() { return this_object(); }
int logon() {
  string old;
  s = "a\n\r\t\\\"/'é"; old = s; t = ""; n = 9223372036854775807; m = -n - 1; e = ({ }); f = ([ ]);
  save_object("/m"); write(read_file("/m.o")); s = t = 0; n = m = 0; e = f = 0; restore_object("/m");
  write((s == old) + (t == "") + "," + (n - 9223372036854775807) + m + sizeof(e) + pointerp(e) + sizeof(f) + mappingp(f) + "\n"); return 1;
}
--- play
connect 1
end
--- written
to 1: "#2:0\n"
      "s \"a\\n\\r\\t\\\\\\\"/'é\"\n"
      "t \"\"\n"
      "n 9223372036854775807\n"
      "m -9223372036854775808\n"
      "e ({})\n"
      "f ([])\n"
      "2,0-92233720368547758080101\n"
end

=== depth_100
# Values lie at most 100 deep in one another; beyond that nothing is written, and nothing is read.
--- /secure/master.c
int valid_read() { return 1; } int valid_write() { return 1; }
mixed v;
int w = 1;
object connect() { return this_object(); }
void deep(int n) { v = ({ }); while (n > 1) { v = ({ v }); n--; } }
string text(int n) { string s = "({})"; while (n > 1) { s = "({" + s + ",})"; n--; } return "w 4\nv " + s + "\n"; }
int logon() {
  deep(100); write(save_object("/m") + "," + file_size("/m.o") + ","); v = 5; w = 2; write(restore_object("/m") + "," + sizeof(v) + w + "\n");
  deep(101); w = 3; write(catch(save_object("/m")) + file_size("/m.o") + "\n");
  write_file("/n.o", text(101)); write(catch(restore_object("/n")) + w + "\n"); rm("/n.o"); write_file("/n.o", text(100)); write(restore_object("/n") + "" + w + "\n"); return 1;
}
--- play
connect 1
end
--- written
to 1: "0,511,1,11\n"
      "*Too deep nesting\n"
      "511\n"
      "*Illegal save text in /n.o line 2\n"
      "3\n"
      "14\n"
end

=== no_leave_or_no_file
# Whoever may not, or has no file, keeps what it has.
--- /o.c
int n = 1;
string go() { int a = save_object("/o"); n++; return a + "," + restore_object("/o") + "," + n + "\n"; }
--- /secure/master.c
object connect() { return this_object(); }
int reads, writes;
int valid_read() { return reads; } int valid_write() { return writes; }
int logon() { write("/o"->go()); writes = 1; write("/o"->go()); reads = 1; write("/o"->go()); rm("/o.o"); write(restore_object("/o") + "\n"); return 1; }
--- play
connect 1
end
--- written
to 1: "1,0,2\n"
      "0,0,3\n"
      "0,1,3\n"
      "0\n"
end

=== first_lines
# First lines.
--- /secure/master.c
mixed v = "as before";
mixed w;
int valid_read() { return 1; } int valid_write() { return 1; }
object connect() { return this_object(); }
void tried(string text) {
  string e; int n;
  rm("/m.o"); write_file("/m.o", text); e = catch(restore_object("/m"));
  write(e ? sscanf(e, "*Illegal save text in /m.o line %d\n", n) && (v == "as before" && w == 0 ? n + "" : "changed") : sprintf("%O", v) + sprintf("%O", w)); v = "as before"; w = 0;
}
int logon() {
  foreach (string t : ({ "#0:0\nv 1\n", "#1:12\nv 1\n", "#2:007\nv 1\n", "#2:0\n", "#3:0\nv 1\n", "#2:\nv 1\n", "#2\nv 1\n", "#:0\nv 1\n", "#2:0 \nv 1\n", "#-1:0\nv 1\n", "# 2:0\nv 1\n", "#2:0", "#", "v 1\n#2:0\n", "\n", "#2:0\n\nv 1\n" })) { tried(t); write(" "); }
  write("\n"); return 1;
}
--- play
connect 1
end
--- written
to 1: "10 10 10 \"as before\"0 1 1 1 1 1 1 1 1 1 2 1 2 \n"
end

=== names_and_numbers
# Names and numbers.
--- /secure/master.c
mixed v = "as before";
mixed w;
int valid_read() { return 1; } int valid_write() { return 1; }
object connect() { return this_object(); }
void tried(string text) {
  string e; int n;
  rm("/m.o"); write_file("/m.o", text); e = catch(restore_object("/m"));
  write(e ? sscanf(e, "*Illegal save text in /m.o line %d\n", n) && (v == "as before" && w == 0 ? n + "" : "changed") : sprintf("%O", v) + sprintf("%O", w)); v = "as before"; w = 0;
}
int logon() {
  foreach (string t : ({ "v -12\n", "v 1", "v\n", "v \n", " v 1\n", "v  1\n", "v 1 \n", "v\t1\n", "1v 1\n", "a-b 1\n", "_ 1\nw 2\n", "v 01\n", "v -0\n", "v +1\n", "v 0x1\n", "v 9223372036854775807\n", "v 9223372036854775808\n", "v -9223372036854775808\n", "v -9223372036854775809\n", "v 1\nw\n", "v 1\nw 2\nv 3\n", "v a\n" })) { tried(t); write(" "); }
  write("\n"); return 1;
}
--- play
connect 1
end
--- written
to 1: "-120 1 1 1 1 1 1 1 1 1 \"as before\"2 1 1 1 1 92233720368547758070 1 -92233720368547758080 1 2 12 1 \n"
end

=== texts
# Texts.
--- /secure/master.c
mixed v = "as before";
mixed w;
int valid_read() { return 1; } int valid_write() { return 1; }
object connect() { return this_object(); }
void tried(string text) {
  string e; int n;
  rm("/m.o"); write_file("/m.o", text); e = catch(restore_object("/m"));
  write(e ? sscanf(e, "*Illegal save text in /m.o line %d\n", n) && (v == "as before" && w == 0 ? n + "" : "changed") : sprintf("%O", v) + sprintf("%O", w)); v = "as before"; w = 0;
}
int logon() {
  foreach (string t : ({ "v \"\\n\\r\\t\\\\\\\"\"\n", "v \"", "v \"a\n", "v \"a\"b\n", "v \"\\a\"\n", "v \"a\tb\"\n", "v \"\\", "v \"\"\nw \"é\"\n", "v 'a'\n" })) { tried(t); write(" "); }
  write("\n"); return 1;
}
--- play
connect 1
end
--- written
to 1: "\"\\n\x0d\t\\\\\\\"\"0 1 1 1 1 1 1 \"\"\"é\" 1 \n"
end

=== arrays_and_mappings
# Arrays and mappings.
--- /secure/master.c
mixed v = "as before";
mixed w;
int valid_read() { return 1; } int valid_write() { return 1; }
object connect() { return this_object(); }
void tried(string text) {
  string e; int n;
  rm("/m.o"); write_file("/m.o", text); e = catch(restore_object("/m"));
  write(e ? sscanf(e, "*Illegal save text in /m.o line %d\n", n) && (v == "as before" && w == 0 ? n + "" : "changed") : sprintf("%O", v) + sprintf("%O", w)); v = "as before"; w = 0;
}
int logon() {
  foreach (string t : ({ "v ({})\n", "v ({1,2,})\n", "v ({1,2})\n", "v ({,})\n", "v ({1 ,})\n", "v ( {1,})\n", "v ({1,}\n", "v ({1,})1\n", "v ([])\n", "v ([1:2,])\n", "v ([\"a\":({0,}),\"a\":1,2:([]),])\n", "v ([1:2])\n", "v ([1,])\n", "v ([1:2:3,])\n", "v ([:1,])\n", "v ([1:2;3,])\n" })) { tried(t); write(" "); }
  write("\n"); return 1;
}
--- play
connect 1
end
--- written
to 1: "({ })0 ({ 1, 2 })0 1 1 1 1 1 1 ([ ])0 ([ 1: 2 ])0 ([ \"a\": 1, 2: ([ ]) ])0 1 1 1 1 1 \n"
end

=== numbers_of_shared_parts
# Numbers of what occurs more than once.
--- /secure/master.c
mixed v = "as before";
mixed w;
int valid_read() { return 1; } int valid_write() { return 1; }
object connect() { return this_object(); }
void tried(string text) {
  string e; int n;
  rm("/m.o"); write_file("/m.o", text); e = catch(restore_object("/m"));
  write(e ? sscanf(e, "*Illegal save text in /m.o line %d\n", n) && (v == "as before" && w == 0 ? n + "" : "changed") : sprintf("%O", v) + sprintf("%O", w)); v = "as before"; w = 0;
}
int logon() {
  foreach (string t : ({ "v ({<1>=({1,}),<1>,})\n", "v <1>=({<1>,})\nw <1>\n", "v <1>=({})\nw <2>=([<1>:<2>,])\n", "v <2>=({})\n", "v <0>=({})\n", "v <01>=({})\n", "v <1>=1\n", "v <1>= ({})\n", "v <1>\n", "v <1>=({})\nw <2>\n", "v <1>=({})\nw <1>=({})\n", "v <1>=({<2>=({}),})\nw ({<1>,<2>,})\n", "v <1>=<1>\n", "v <>\n", "v <1\n", "v ({<1>=({}),})\n" })) { tried(t); write(" "); }
  write("\n"); return 1;
}
--- play
connect 1
end
--- written
to 1: "({ ({ 1 }), ({ 1 }) })0 ({ <...> })({ <...> }) ({ })([ ({ }): <...> ]) 1 1 1 1 1 1 2 2 ({ ({ }) })({ ({ ({ }) }), ({ }) }) 1 1 1 ({ ({ }) })0 \n"
end

=== each_front_of_a_text
# Each front of a text: its whole lines are read, and a line without its end is told.
--- /secure/master.c
mixed v;
mixed w;
int valid_read() { return 1; } int valid_write() { return 1; }
object connect() { return this_object(); }
int logon() {
  string text = "#2:0\nv ({1,\"a\\n\",<1>=([-2:<1>,]),})\nother 3\nw \"é\\\"\"\n", e; int i, n;
  for (i = 0; i <= strlen(text); i++) {
    rm("/m.o"); write_file("/m.o", text[0..i - 1]); v = 0; w = 0; n = 0; e = catch(restore_object("/m"));
    if (e) { sscanf(e, "*Illegal save text in /m.o line %d\n", n); write(n + (v ? "v" : "") + (w ? "w" : "")); }
    else write((v ? "v" + sizeof(v) + strlen(v[1]) + sizeof(v[2][-2][-2][-2]) : "-") + (w ? "w" + strlen(w) : "-"));
  }
  write("\n"); return 1;
}
--- play
connect 1
end
--- written
to 1: "--1111--222222222222222222222222222222v321-3333333v321-4444444v321w2\n"
end
