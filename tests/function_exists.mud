# `function_exists`, and names of functions as texts of any letters and lengths.
--- /high.c
inherit "/std/low";
int high() { return 4; }
mixed seen(mixed s) { return function_exists(s); }
int proto();
protected int pro() { return 5; }
private int mine() { return 6; }
mixed dies(string s) { destruct(this_object()); return catch(function_exists(s)); }
mixed dies_with(string s, object o) { destruct(this_object()); return function_exists(s, o); }
--- /other.c
mixed asks(object o, string s) { return call_other(o, s); }
mixed there(mixed s, mixed o) { return function_exists(s, o); }
mixed both(object o) { return sprintf("%s %d", function_exists("low", o), o->low()); }
--- /secure/master.c
object connect() { return this_object(); }
object low, high, other;
int logon() {
  low = load_object("/std/low"); high = load_object("/high"); other = load_object("/other");
  enable_commands(); add_action("go", "go");
  return 1;
}
int go(string s) { @@ return 1; }
mixed seen(string *all) {
  string s, text;
  text = "";
  foreach (s : all) text += high->seen(s) + ",";
  return text;
}
--- /std/low.c
private int hid() { return 1; }
static int sta() { return 2; }
int low() { return 3; }
int proto();
int aaaaaaaaaaaaaaaaaaaaaaaaaaaaaaaaaaaaaaaaaaaaaaaaaaaaaaaaaaaaaaaa() { return 64; }
int aaaaaaaaaaaaaaaaaaaaaaaaaaaaaaaaaaaaaaaaaaaaaaaaaaaaaaaaaaaaaaaaa() { return 65; }
--- play
connect 1
line 1: go
end

=== call_by_a_text_of_any_letters
# A function, the empty text, and 30 and 64 letters of which some are not of ASCII: a name that is not of ASCII is that of no function.
code: string e; int i; e = ""; for (i = 0; i < 64; i++) e += "é";
code: write(other->asks(high, "low") + "," + other->asks(high, "") + "," + other->asks(high, "aaaaaaaaaaaaaaaaaaaaaaaaaaaaaaé"));
code: write("," + other->asks(high, e));
gives: "3,0,0,0"

=== call_by_a_text_of_any_length
# Of 64 letters, of 65, and of 66, which is none.
code: string s; s = "aaaaaaaaaaaaaaaaaaaaaaaaaaaaaaaaaaaaaaaaaaaaaaaaaaaaaaaaaaaaaaaa";
code: write(strlen(s) + "," + other->asks(high, s) + "," + other->asks(high, s + "a") + "," + other->asks(high, s + "aa"));
gives: "64,64,65,0"

=== where_a_function_stands
# The path of the program in whose text it stands: of the parent, of the file itself; a static and a protected one are seen.
code: write(seen(({ "low", "high", "sta", "pro" })));
gives: "/std/low,/high,/std/low,/high,"

=== what_is_no_function
# A private one of the parent and of the file itself, a prototype alone, letters beyond ASCII, the empty text, and what is nowhere.
code: write(seen(({ "hid", "mine", "proto", "été", "fä", "", "x" })));
gives: "0,0,0,0,0,0,0,"

=== of_another_object
# Of the heir, of the parent, which has not its heir's, and of the caller itself; a private one is hidden from its owner too.
code: write(other->there("low", high) + "," + other->there("high", high) + "," + other->there("high", low));
code: write("," + other->there("hid", low) + "," + other->there("there", other));
code: write("," + other->both(high));
gives: "/std/low,/high,0,0,/other,/std/low 3"

=== a_name_that_is_no_text
code: other->there(1, high);
--- written
log: "error: Bad argument 1 to function_exists [there of /other, object /other]"
to 1: "Your sensitive mind notices a wrongness in the fabric of space.\n"
end

=== no_text_and_no_object
# What is no object, and what was one; of a destructed caller alone the missing object is the second argument, and with another
# object it gets an answer.
code: object o; write(catch(high->seen(1)) + catch(other->there("low", 1)));
code: o = clone_object("/high"); destruct(o); write(catch(other->there("low", o)));
code: o = clone_object("/high"); write(o->dies("low"));
code: o = clone_object("/high"); write(o->dies_with("low", high));
--- written
to 1: "*Bad argument 1 to function_exists\n*Bad argument 2 to function_exists\n*Bad argument 2 to function_exists\n"
      "*Bad argument 2 to function_exists\n/std/low"
end

=== programs_that_are_out
# The object asked about and both programs are out, and come back for the answer.
code: write(function_exists("low", high) + "," + function_exists("high", high) + "," + function_exists("hid", high));
code: write("," + function_exists("high", low) + "," + function_exists("proto", high));
--- play
connect 1
swap /high
swap /std/low
line 1: go
end
--- written
to 1: "/std/low,/high,0,0,0"
end

=== a_program_that_cannot_be_read
# The swap file fails when the program is wanted, and the run ends there.
status: 7
swap reads fail: 1
code: write("before\n"); write(function_exists("low", high));
--- play
connect 1
line 1: what
swap /high
line 1: go
end
--- written
to 1: "What?\n"

=== a_program_that_is_read_falsely
# One bit is enough: what comes is not what went out.
status: 7
swap reads lie: 1
code: write(function_exists("low", high));
--- play
connect 1
line 1: what
swap /high
line 1: go
end
--- written
to 1: "What?\n"
