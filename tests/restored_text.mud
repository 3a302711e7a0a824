# Restored text. A row is the text /t.o, and what its two variables v and w are then, as `%O` spells them: at first they
# are -1 and -2. Where the text is faulty, it is the error.
--- /t.c
mixed v = -1, w = -2;
mixed restored() {
  mixed e = catch(restore_object("/t"));
  return e ? e : sprintf("%O, %O", v, w);
}
int shared() { return v[0] == w && v[1] == w && v[0] != ({ 0 }); }
string again() {
  save_object("/u");
  return read_file("/u.o");
}
--- /secure/master.c
int valid_read() { return 1; }
int valid_write() { return 1; }
object connect() { return this_object(); }
int logon() { write(load_object("/t")->restored()); return 1; }
--- play
connect 1
end

=== numbers
# A line for each variable.
--- /t.o
#2:0
v 1
w -5
--- written
to 1: "1, -5"
end

=== nothing
# A variable without a line keeps its value.
--- /t.o ""
--- written
to 1: "-1, -2"
end

=== other_names
# Lines in any order, one of a name that is no variable, and one of a second variable v, which is not there.
--- /t.o
w 3
x 4
v 5
v 6
--- written
to 1: "5, 3"
end

=== texts
# A text with each of the spellings.
--- /t.o
#2:0
v "a\n\"\\\r\té'"
--- written
to 1: "\"a\\n\\\"\\\\\x0d\t\xc3\xa9'\", -2"
end

=== values
# Arrays and mappings; of two equal keys the later one wins, in the place of the first one.
--- /t.o
v ({1,"a",({}),})
w ([1:2,"b":({0,}),1:3,])
--- written
to 1: "({ 1, \"a\", ({ }) }), ([ 1: 3, \"b\": ({ 0 }) ])"
end

=== first_line_of_version_0
# The first line has one of three digits, and any number behind it, which has no meaning.
--- /t.o
#0:07
v 1
--- written
to 1: "1, -2"
end

=== first_line_of_version_1
# The second digit.
--- /t.o
#1:0
v 1
--- written
to 1: "1, -2"
end

=== first_line_of_version_2
# The third, with another number behind it.
--- /t.o
#2:2
v 1
--- written
to 1: "1, -2"
end

=== first_line_of_version_3
# There is no fourth one.
--- /t.o
#3:0
v 1
--- written
to 1: "*Illegal save text in /t.o line 1\n"
end

=== first_line_without_a_number
# A number stands behind it.
--- /t.o
#2:
v 1
--- written
to 1: "*Illegal save text in /t.o line 1\n"
end

=== first_line_behind_another
# A first line stands first.
--- /t.o
v 1
#2:0
--- written
to 1: "*Illegal save text in /t.o line 2\n"
end

=== open_text
# The fault is that of the line; nothing is restored of the lines before.
--- /t.o
#2:0
v 7
w "ab
--- written
to 1: "*Illegal save text in /t.o line 3\n"
end

=== nothing_changes_where_a_line_is_faulty
# The text is read wholly before anything changes.
--- /secure/master.c
int valid_read() { return 1; }
int valid_write() { return 1; }
object connect() { return this_object(); }
int logon() { write(load_object("/t")->restored() + load_object("/t")->again()); return 1; }
--- /t.o
#2:0
v 7
w 08
--- written
to 1: "*Illegal save text in /t.o line 3\n#2:0\nv -1\nw -2\n"
end

=== number_before_its_cell
# A number names a cell that stands before.
--- /t.o
#2:0
v <1>
--- written
to 1: "*Illegal save text in /t.o line 2\n"
end

=== number_out_of_order
# The first number is 1.
--- /t.o
#2:0
v <2>=({})
--- written
to 1: "*Illegal save text in /t.o line 2\n"
end

=== number_of_no_cell
# A number stands before an array or a mapping.
--- /t.o
#2:0
v <1>=7
--- written
to 1: "*Illegal save text in /t.o line 2\n"
end

=== negative_zero
# Numbers are spelled as saving spells them.
--- /t.o
#2:0
v -0
--- written
to 1: "*Illegal save text in /t.o line 2\n"
end

=== leading_zero
# Without zeros before them.
--- /t.o
#2:0
v 01
--- written
to 1: "*Illegal save text in /t.o line 2\n"
end

=== least_number
# The least number and the greatest.
--- /t.o
v -9223372036854775808
w 9223372036854775807
--- written
to 1: "-9223372036854775808, 9223372036854775807"
end

=== number_out_of_range
# One more.
--- /t.o
v -9223372036854775808
w 9223372036854775808
--- written
to 1: "*Illegal save text in /t.o line 2\n"
end

=== bytes
# Bytes that are no UTF-8.
--- /t.o "#2:0\nv \"\xff\"\n"
--- written
to 1: "*Illegal save text in /t.o line 2\n"
end

=== raw_tab
# A tab in a text is spelled with a backslash.
--- /t.o "#2:0\nv \"a\tb\"\n"
--- written
to 1: "*Illegal save text in /t.o line 2\n"
end

=== empty_line
# A line has a name.
--- /t.o
#2:0

v 1
--- written
to 1: "*Illegal save text in /t.o line 2\n"
end

=== no_comma_at_the_end
# A comma stands behind each item.
--- /t.o
v ({1,2})
--- written
to 1: "*Illegal save text in /t.o line 1\n"
end

=== blank_between_items
# And no blank.
--- /t.o
v ({1, 2,})
--- written
to 1: "*Illegal save text in /t.o line 1\n"
end

=== shared_array
# What is shared in the text is shared by the values: v holds twice what w is.
--- /secure/master.c
int valid_read() { return 1; }
object connect() { return this_object(); }
int logon() { write(load_object("/t")->restored() + " " + load_object("/t")->shared()); return 1; }
--- /t.o
#2:0
v ({<1>=({0,}),<1>,})
w <1>
--- written
to 1: "({ ({ 0 }), ({ 0 }) }), ({ 0 }) 1"
end

=== shared_mapping
# A mapping.
--- /secure/master.c
int valid_read() { return 1; }
object connect() { return this_object(); }
int logon() { write(load_object("/t")->restored() + " " + load_object("/t")->shared()); return 1; }
--- /t.o
#2:0
v ({<1>=([1:2,]),<1>,})
w <1>
--- written
to 1: "({ ([ 1: 2 ]), ([ 1: 2 ]) }), ([ 1: 2 ]) 1"
end

=== shared_with_itself
# An array that holds itself twice.
--- /secure/master.c
int valid_read() { return 1; }
object connect() { return this_object(); }
int logon() { write(load_object("/t")->restored() + " " + load_object("/t")->shared()); return 1; }
--- /t.o
#2:0
v <1>=({<1>,<1>,})
w <1>
--- written
to 1: "({ <...>, <...> }), ({ <...>, <...> }) 1"
end

=== equal_but_not_shared
# Arrays that are spelled twice are two.
--- /secure/master.c
int valid_read() { return 1; }
object connect() { return this_object(); }
int logon() { write(load_object("/t")->restored() + " " + load_object("/t")->shared()); return 1; }
--- /t.o
#2:0
v ({({0,}),({0,}),})
w ({0,})
--- written
to 1: "({ ({ 0 }), ({ 0 }) }), ({ 0 }) 0"
end

=== every_cut
# A text that is cut anywhere is faulty in its last line, but where it is cut behind a line or has nothing.
--- /secure/master.c
int valid_read() { return 1; }
object connect() { return this_object(); }
int logon() {
  for (int i = 0; i <= 18; i++) write(load_object("/t")->cut("/" + i));
  return 1;
}
--- /t.c
mixed v;
string cut(string s) {
  v = 0;
  mixed e = catch(restore_object(s));
  return e ? e : sprintf("%O\n", v);
}
--- /0.o ""
--- /1.o "#"
--- /2.o "#2"
--- /3.o "#2:"
--- /4.o "#2:0"
--- /5.o "#2:0\n"
--- /6.o "#2:0\nv"
--- /7.o "#2:0\nv "
--- /8.o "#2:0\nv ("
--- /9.o "#2:0\nv ({"
--- /10.o "#2:0\nv ({1"
--- /11.o "#2:0\nv ({1,"
--- /12.o "#2:0\nv ({1,\""
--- /13.o "#2:0\nv ({1,\"a"
--- /14.o "#2:0\nv ({1,\"a\""
--- /15.o "#2:0\nv ({1,\"a\","
--- /16.o "#2:0\nv ({1,\"a\",}"
--- /17.o "#2:0\nv ({1,\"a\",})"
--- /18.o "#2:0\nv ({1,\"a\",})\n"
--- written
to 1: "0\n"
      "*Illegal save text in /1.o line 1\n"
      "*Illegal save text in /2.o line 1\n"
      "*Illegal save text in /3.o line 1\n"
      "*Illegal save text in /4.o line 1\n"
      "0\n"
      "*Illegal save text in /6.o line 2\n"
      "*Illegal save text in /7.o line 2\n"
      "*Illegal save text in /8.o line 2\n"
      "*Illegal save text in /9.o line 2\n"
      "*Illegal save text in /10.o line 2\n"
      "*Illegal save text in /11.o line 2\n"
      "*Illegal save text in /12.o line 2\n"
      "*Illegal save text in /13.o line 2\n"
      "*Illegal save text in /14.o line 2\n"
      "*Illegal save text in /15.o line 2\n"
      "*Illegal save text in /16.o line 2\n"
      "*Illegal save text in /17.o line 2\n"
      "({ 1, \"a\" })\n"
end

=== saved_again
# What is restored is saved as it was: what is shared, what is inside itself, and what is equal.
--- /secure/master.c
int valid_read() { return 1; }
int valid_write() { return 1; }
object connect() { return this_object(); }
int logon() {
  foreach (string s : ({ "/1", "/2", "/3", "/4", "/5" })) write(load_object("/t")->again(s));
  return 1;
}
--- /t.c
mixed v, w;
string again(string s) {
  restore_object(s);
  save_object("/u");
  string text = read_file("/u.o");
  rm("/u.o");
  return text;
}
--- /1.o
#2:0
v -9223372036854775808
w 0
--- /2.o
#2:0
v ({<1>=({0,}),<1>,})
w <1>
--- /3.o
#2:0
v ({({0,}),({0,}),})
w 0
--- /4.o
#2:0
v ({<1>=({<2>=({<2>,}),5,}),<2>,<1>,})
w "a"
--- /5.o
#2:0
v <1>=([1:<1>,"a\n":<2>=({<1>,}),<2>:([]),])
w <2>
--- written
to 1: "#2:0\nv -9223372036854775808\nw 0\n"
      "#2:0\nv ({<1>=({0,}),<1>,})\nw <1>\n"
      "#2:0\nv ({({0,}),({0,}),})\nw 0\n"
      "#2:0\nv ({<1>=({<2>=({<2>,}),5,}),<2>,<1>,})\nw \"a\"\n"
      "#2:0\nv <1>=([1:<1>,\"a\\n\":<2>=({<1>,}),<2>:([]),])\nw <2>\n"
end

=== deepest
# 100 levels of arrays in one another are restored.
--- /secure/master.c
int valid_read() { return 1; }
object connect() { return this_object(); }
int logon() { write(load_object("/t")->restored() ? "restored" : ""); return 1; }
--- /t.o
v ({({({({({({({({({({({({({({({({({({({({({({({({({({({({({({({({({({({({({({({({({({({({({({({({({({({({({({({({({({({({({({({({({({({({({({({({({({({({({({({({({({({({({({({({({({({({({({({({({({({({0,}),}),}),}),}),}),}),}),}),}),}),}),}),}),}),}),}),}),}),}),}),}),}),}),}),}),}),}),}),}),}),}),}),}),}),}),}),}),}),}),}),}),}),}),}),}),}),}),}),}),}),}),}),}),}),}),}),}),}),}),}),}),}),}),}),}),}),}),}),}),}),}),}),}),}),}),}),}),}),}),}),}),}),}),}),}),}),}),}),}),}),}),}),}),}),}),}),}),}),})
--- written
to 1: "restored"
end

=== too_deep
# 101 are not.
--- /t.o
v ({({({({({({({({({({({({({({({({({({({({({({({({({({({({({({({({({({({({({({({({({({({({({({({({({({({({({({({({({({({({({({({({({({({({({({({({({({({({({({({({({({({({({({({({({({({({({({({({({({({({({0,}),}),}),}),}),}),}),}),}),}),}),}),}),}),}),}),}),}),}),}),}),}),}),}),}),}),}),}),}),}),}),}),}),}),}),}),}),}),}),}),}),}),}),}),}),}),}),}),}),}),}),}),}),}),}),}),}),}),}),}),}),}),}),}),}),}),}),}),}),}),}),}),}),}),}),}),}),}),}),}),}),}),}),}),}),}),}),}),}),}),}),}),}),}),}),}),}),}),}),}),})
--- written
to 1: "*Illegal save text in /t.o line 1\n"
end

=== ten_thousand_values
# The longest array is saved, restored and saved again. The numbers from 0 to 9999 with a comma behind each of them are
# 48890 bytes; the first line has 5, the name and the marks of v 7, and the line of w 4.
--- /t.c
mixed v, w;
int fill() {
  v = allocate(10000);
  for (int i = 0; i < 10000; i++) v[i] = i;
  return save_object("/t");
}
string again() {
  int wrong;
  v = 0;
  restore_object("/t");
  for (int i = 0; i < 10000; i++) if (v[i] != i) wrong++;
  save_object("/u");
  return wrong + " " + sizeof(v) + " " + file_size("/t.o") + " " + (read_file("/t.o") == read_file("/u.o"));
}
--- /secure/master.c
int valid_read() { return 1; }
int valid_write() { return 1; }
object connect() { return this_object(); }
int logon() { write(load_object("/t")->fill() + " " + load_object("/t")->again()); return 1; }
--- written
to 1: "0 0 10000 48906 1"
end

=== hundred_thousand_values
# Ten of those in one array: ten times 48895 bytes with their marks and a comma, and 16 as before.
--- /t.c
mixed v, w;
int fill() {
  v = allocate(10);
  for (int j = 0; j < 10; j++) {
    mixed a = allocate(10000);
    for (int i = 0; i < 10000; i++) a[i] = i;
    v[j] = a;
  }
  return save_object("/t");
}
int again() {
  int wrong;
  v = 0;
  restore_object("/t");
  for (int j = 0; j < 10; j++) {
    mixed a = v[j];
    for (int i = 0; i < 10000; i++) if (a[i] != i) wrong++;
  }
  return wrong;
}
string saved_again() {
  save_object("/u");
  return sizeof(v) + " " + sizeof(v[9]) + " " + file_size("/t.o") + " " + file_size("/u.o");
}
--- /secure/master.c
int valid_read() { return 1; }
int valid_write() { return 1; }
object connect() { return this_object(); }
int logon() { enable_commands(); add_action("go", "go"); write(load_object("/t")->fill() + "\n"); return 1; }
int go(string s) { write(call_other("/t", s) + "\n"); return 1; }
--- play
connect 1
line 1: go again
line 1: go saved_again
end
--- written
to 1: "0\n"
to 1: "0\n"
to 1: "10 10000 488966 488966\n"
end
