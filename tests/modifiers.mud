# Which function a name means: private, protected, static and nomask ones, from inside, from outside and from the driver, over three
# levels of files.
--- /out.c
mixed ask(object o, string s) { return call_other(o, s); }
string asks(object o, string *all) {
  string s, text;
  text = "";
  foreach (s : all) text += s + " " + call_other(o, s) + ",";
  return text;
}
--- /secure/master.c
object connect() { return this_object(); }
object base, mid, top, out;
int logon() {
  base = load_object("/std/base"); mid = load_object("/std/mid"); top = load_object("/std/top"); out = load_object("/out");
  @@
  return 1;
}
--- /std/base.c
private int pri() { return 1; }
protected int pro() { return 2; }
static int sta() { return 3; }
nomask int nom() { return 4; }
int virt() { return 10; }
int calls() { return virt(); }
int own() { return pri(); }
int hides() { return 5; }
private void tell_pri() { write("private of base"); }
protected void tell_pro() { write("protected of base"); }
static void tell_sta() { write("static of base"); }
mixed later(string f) { return catch(call_out(f, 0)); }
--- /std/child.c
inherit "/std/one"; inherit "/std/two";
int f() { return ::f() * 100 + "one"::f() * 10 + "two"::f(); }
int others() { return ::only(); }
int apart() { return sets() * 10 + gets(); }
--- /std/mid.c
inherit "/std/base";
private int pri() { return 100; }
private int hides() { return 6; }
int virt() { return ::virt() + 1; }
int below() { return pro() + sta(); }
int hidden() { return hides(); }
private void tell_pri() { write("private of mid"); }
--- /std/one.c
int v; int f() { return 1; } int only() { return 7; } int sets() { v = 5; return v; }
--- /std/top.c
inherit "/std/mid";
int virt() { return "mid"::virt() + 100; }
int both() { return ::virt() * 1000 + "/std/mid"::virt(); }
string self(string *all) {
  string s, text;
  text = "";
  foreach (s : all) text += s + " " + call_other(this_object(), s) + ",";
  return text;
}
int uses() { return pro() * 10 + sta(); }
--- /std/two.c
int v; int f() { return 2; } int gets() { return v; }
--- play
connect 1
end

=== from_outside_of_the_object_that_has_them
# A private, a protected and a static one are not there; of the file itself and of a heir of its heir.
code: write(out->asks(base, ({ "pri", "pro", "sta" })) + "\n" + out->asks(top, ({ "pri", "pro", "sta" })));
gives: "pri 0,pro 0,sta 0,\npri 0,pro 0,sta 0,"

=== from_outside_the_latest_file_counts
# A nomask one; one that each file has, also where a function of the lowest file calls it; a private one of the middle, which hides
# the public one below from the heir and its callers; one that uses those which outside are not there; and one that is missing.
code: write(out->asks(top, ({ "nom", "virt", "calls", "hides", "hidden", "uses", "missing" })));
gives: "nom 4,virt 111,calls 111,hides 0,hidden 6,uses 23,missing 0,"

=== an_object_may_call_its_own_static_ones_by_name
# And neither its private nor its protected ones.
code: write(top->self(({ "pri", "pro", "sta", "nom", "virt" })));
gives: "pri 0,pro 0,sta 3,nom 4,virt 111,"

=== from_inside
# The parent's by `::` and by its path; a private one stays with the file that calls it, in both objects; protected and static ones
# of the parent; and the middle's own.
code: write(top->both() + "," + top->own() + "," + mid->own() + "," + top->below() + "," + mid->virt());
gives: "11011,1,1,5,11"

=== the_driver_applies_a_function_whatever_its_modifiers
# Call-outs of the lowest object, then one of the middle, whose own private one counts, and of the heir, which sees a protected one.
code: base->later("tell_pri"); base->later("tell_pro"); base->later("tell_sta"); mid->later("tell_pri"); top->later("tell_pro");
--- play
connect 1
tick 0
end
--- written
log: "private of base"
log: "protected of base"
log: "static of base"
log: "private of mid"
log: "protected of base"
end

=== the_driver_finds_no_private_one_of_a_parent
# The heir has no such function for a call-out, nor one that is nowhere.
code: write(top->later("tell_pri") + top->later("missing"));
--- play
connect 1
tick 0
end
--- written
to 1: "*No such function\n*No such function\n"
end

=== a_private_logon_of_the_object_itself
# The driver calls it; and as the parent's it is none of the heir's, whose `logon` then answers 0.
--- /secure/master.c
int n;
object connect() { return load_object(n++ ? "/top" : "/mid"); }
--- /mid.c
private int logon() { write("mid"); return 1; }
--- /top.c
inherit "/mid";
--- play
connect 1
connect 2
end
--- written
to 1: "mid"
close 2
end

=== the_last_parent_that_has_it_or_the_one_that_is_named
# `::f()` is the last one's; `::only()` that of the one that has it.
code: object o; o = load_object("/std/child"); write(o->f() + "," + o->others());
gives: "212,7"

=== each_parent_has_variables_of_its_own
# Two parents have a variable of the same name: what one sets the other does not see.
code: write("/std/child"->apart());
gives: "50"
