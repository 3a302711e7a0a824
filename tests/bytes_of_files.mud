# Files of any bytes, as they are read: the code points of their text, or none, and their bytes.
--- /secure/master.c
#define READ(path) text = read_file(path); write((text ? strlen(text) + "" : "none") + " of " + file_size(path) + "\n");
mixed text;
string all;
int valid_read() { return 1; }
int valid_write() { return 1; }
object connect() {
  all = "éééééééééé";
  while (strlen(all) < 50000) all += all;
  all += all[0..99999 - strlen(all)];
  return this_object();
}
int logon() { @@ return 1; }
--- play
connect 1
end

=== texts
# An empty one, one of two lines, and one of the first and the last code point.
code: READ("/empty") READ("/lines") READ("/ends") write(sprintf("%d %d\n", read_file("/ends")[0], read_file("/ends")[1]));
gives: "0 of 0\n3 of 3\n2 of 5\n0 1114111\n"
--- /empty ""
--- /ends "\x00\xf4\x8f\xbf\xbf"
--- /lines "a\nb"

=== no_texts
# A byte of no code point, half of one, a surrogate, and more bytes than are needed.
code: READ("/byte") READ("/half") READ("/surrogate") READ("/longer")
gives: "none of 3\nnone of 1\nnone of 3\nnone of 2\n"
--- /byte "ab\xff"
--- /half "\xc3"
--- /longer "\xc0\x80"
--- /surrogate "\xed\xa0\x80"

=== the_longest_text
# A file may be longer than a text, and is none then.
code: write_file("/long", all); READ("/long") write((read_file("/long") == all) + "\n"); write_file("/long", "é"); READ("/long")
gives: "100000 of 200000\n1\nnone of 200002\n"
