# Budgets: each source event is paid for, and where less is left the driver's call ends at once, whatever catches.
# `left(n)` comes back with exactly n left for who called it, where that was entered by the driver and paid for nothing else. An entry
# there and one here; 199 turns of a loop, each with a comparison, the turn, a range of 1 and a sixteenth of 80000 letters, and a step,
# and the comparison at its end; an operator, three for each turn of the next loop, and one at its end; three operators, an efun, and
# a sixteenth of the items of the array. So each price is seen at its edge. `n` counts what is left behind it, one for each step.
--- /b.c
int part(int n) { return n * n; }
--- /c.c
inherit "/p"; int y = 5; int w() { return x * 10 + y; }
--- /p.c
int x = f(); int f() { return 1 + 2; } void create() { x++; } int v() { return x; }
--- /proud.c
#pragma no_shadow
int v() { return 1; }
--- /secure/master.c
object connect() { return this_object(); }
int n, x;
object o, proud;
int query_allow_shadow(object o) { return 0; }
string letters;
void left(int most) {
  int i;
  for (i = 0; i < 199; i++) letters[0..0];
  for (i = most / 3; i < 1397; i++) ;
  allocate(16 * (4 - most % 3));
}
void go(int most) { x = 7; n = 0; left(most); @@ n++; n++; n++; }
void told(int most) { write(most + ": " + x + ", " + n + " left"); }
void lives(int most) {
  write(most + ": " + x + ", " + n + " left" + (find_object("/p") ? ", the parent" : "") + (find_object("/c") ? ", the heir" : ""));
}
void clear() { if (find_object("/p")) destruct(find_object("/p")); if (find_object("/c")) destruct(find_object("/c")); }
void asks() { write("/p"->v() + " " + "/c"->v() + " " + "/c"->w()); }
void parent() { write("/p"->v()); }
// Each of them in a call of the driver of its own, and then what came of it.
void each(int *all) { int most; foreach (most : all) { call_out("go", 0, most); call_out("told", 0, most); } }
void loads(int *all) {
  int most;
  foreach (most : all) { call_out("clear", 0); call_out("go", 0, most); call_out("lives", 0, most); }
}
int work(int n) { int i, s; for (i = 0; i < n; i++) s += i; return s * 2 - 1; }
mixed guarded(int n) { return catch(work(n)); }
int twice(object o) { return o->part(3) + o->part(4); }
int logon() {
  o = load_object("/b"); proud = load_object("/proud");
  letters = sprintf("%8000s", "");
  letters = letters + letters + letters + letters + letters + letters + letters + letters + letters + letters;
  enable_commands(); add_action("each_of", "each"); add_action("loads_of", "loads"); add_action("later", "later");
  return 1;
}
int *numbers(string s) { return map(explode(s, " "), "number", this_object()); }
int number(string s) { return to_int(s); }
int each_of(string s) { each(numbers(s)); return 1; }
int loads_of(string s) { loads(numbers(s)); return 1; }
int later(string s) { call_out(s, 0); return 1; }

=== a_function_of_twenty_events
# An entry, a comparison at each of five turns of the head, four turns of the loop with an addition and a step each, and two operators
# at the end. Where the entry is not paid, the caller is named.
code: x = work(4);
--- play
connect 1
line 1: each 0 1 2 3 4 5 6 7 8 9 10 11 12 13 14 15 16 17 18 19 20 21 22 23
tick 0
end
--- written
log: "error: Too long evaluation. Execution aborted. [go of /secure/master, object /secure/master]"
log: "0: 7, 0 left"
log: "error: Too long evaluation. Execution aborted. [work of /secure/master, object /secure/master]"
log: "1: 7, 0 left"
log: "error: Too long evaluation. Execution aborted. [work of /secure/master, object /secure/master]"
log: "2: 7, 0 left"
log: "error: Too long evaluation. Execution aborted. [work of /secure/master, object /secure/master]"
log: "3: 7, 0 left"
log: "error: Too long evaluation. Execution aborted. [work of /secure/master, object /secure/master]"
log: "4: 7, 0 left"
log: "error: Too long evaluation. Execution aborted. [work of /secure/master, object /secure/master]"
log: "5: 7, 0 left"
log: "error: Too long evaluation. Execution aborted. [work of /secure/master, object /secure/master]"
log: "6: 7, 0 left"
log: "error: Too long evaluation. Execution aborted. [work of /secure/master, object /secure/master]"
log: "7: 7, 0 left"
log: "error: Too long evaluation. Execution aborted. [work of /secure/master, object /secure/master]"
log: "8: 7, 0 left"
log: "error: Too long evaluation. Execution aborted. [work of /secure/master, object /secure/master]"
log: "9: 7, 0 left"
log: "error: Too long evaluation. Execution aborted. [work of /secure/master, object /secure/master]"
log: "10: 7, 0 left"
log: "error: Too long evaluation. Execution aborted. [work of /secure/master, object /secure/master]"
log: "11: 7, 0 left"
log: "error: Too long evaluation. Execution aborted. [work of /secure/master, object /secure/master]"
log: "12: 7, 0 left"
log: "error: Too long evaluation. Execution aborted. [work of /secure/master, object /secure/master]"
log: "13: 7, 0 left"
log: "error: Too long evaluation. Execution aborted. [work of /secure/master, object /secure/master]"
log: "14: 7, 0 left"
log: "error: Too long evaluation. Execution aborted. [work of /secure/master, object /secure/master]"
log: "15: 7, 0 left"
log: "error: Too long evaluation. Execution aborted. [work of /secure/master, object /secure/master]"
log: "16: 7, 0 left"
log: "error: Too long evaluation. Execution aborted. [work of /secure/master, object /secure/master]"
log: "17: 7, 0 left"
log: "error: Too long evaluation. Execution aborted. [work of /secure/master, object /secure/master]"
log: "18: 7, 0 left"
log: "error: Too long evaluation. Execution aborted. [work of /secure/master, object /secure/master]"
log: "19: 7, 0 left"
log: "error: Too long evaluation. Execution aborted. [go of /secure/master, object /secure/master]"
log: "20: 11, 0 left"
log: "error: Too long evaluation. Execution aborted. [go of /secure/master, object /secure/master]"
log: "21: 11, 1 left"
log: "error: Too long evaluation. Execution aborted. [go of /secure/master, object /secure/master]"
log: "22: 11, 2 left"
log: "23: 11, 3 left"
end

=== a_spent_budget_is_not_caught
# A catch costs nothing by itself.
code: x = guarded(4);
--- play
connect 1
line 1: each 0 1 2 3 4 5 6 7 8 9 10 11 12 13 14 15 16 17 18 19 20 21 22
tick 0
end
--- written
log: "error: Too long evaluation. Execution aborted. [go of /secure/master, object /secure/master]"
log: "0: 7, 0 left"
log: "error: Too long evaluation. Execution aborted. [guarded of /secure/master, object /secure/master]"
log: "1: 7, 0 left"
log: "error: Too long evaluation. Execution aborted. [work of /secure/master, object /secure/master]"
log: "2: 7, 0 left"
log: "error: Too long evaluation. Execution aborted. [work of /secure/master, object /secure/master]"
log: "3: 7, 0 left"
log: "error: Too long evaluation. Execution aborted. [work of /secure/master, object /secure/master]"
log: "4: 7, 0 left"
log: "error: Too long evaluation. Execution aborted. [work of /secure/master, object /secure/master]"
log: "5: 7, 0 left"
log: "error: Too long evaluation. Execution aborted. [work of /secure/master, object /secure/master]"
log: "6: 7, 0 left"
log: "error: Too long evaluation. Execution aborted. [work of /secure/master, object /secure/master]"
log: "7: 7, 0 left"
log: "error: Too long evaluation. Execution aborted. [work of /secure/master, object /secure/master]"
log: "8: 7, 0 left"
log: "error: Too long evaluation. Execution aborted. [work of /secure/master, object /secure/master]"
log: "9: 7, 0 left"
log: "error: Too long evaluation. Execution aborted. [work of /secure/master, object /secure/master]"
log: "10: 7, 0 left"
log: "error: Too long evaluation. Execution aborted. [work of /secure/master, object /secure/master]"
log: "11: 7, 0 left"
log: "error: Too long evaluation. Execution aborted. [work of /secure/master, object /secure/master]"
log: "12: 7, 0 left"
log: "error: Too long evaluation. Execution aborted. [work of /secure/master, object /secure/master]"
log: "13: 7, 0 left"
log: "error: Too long evaluation. Execution aborted. [work of /secure/master, object /secure/master]"
log: "14: 7, 0 left"
log: "error: Too long evaluation. Execution aborted. [work of /secure/master, object /secure/master]"
log: "15: 7, 0 left"
log: "error: Too long evaluation. Execution aborted. [work of /secure/master, object /secure/master]"
log: "16: 7, 0 left"
log: "error: Too long evaluation. Execution aborted. [work of /secure/master, object /secure/master]"
log: "17: 7, 0 left"
log: "error: Too long evaluation. Execution aborted. [work of /secure/master, object /secure/master]"
log: "18: 7, 0 left"
log: "error: Too long evaluation. Execution aborted. [work of /secure/master, object /secure/master]"
log: "19: 7, 0 left"
log: "error: Too long evaluation. Execution aborted. [work of /secure/master, object /secure/master]"
log: "20: 7, 0 left"
log: "error: Too long evaluation. Execution aborted. [go of /secure/master, object /secure/master]"
log: "21: 0, 0 left"
log: "error: Too long evaluation. Execution aborted. [go of /secure/master, object /secure/master]"
log: "22: 0, 1 left"
end

=== a_call_of_another_object
# An entry, twice an efun, an entry there and a product, and a sum.
code: x = twice(o);
--- play
connect 1
line 1: each 0 1 2 3 4 5 6 7 8 9
tick 0
end
--- written
log: "error: Too long evaluation. Execution aborted. [go of /secure/master, object /secure/master]"
log: "0: 7, 0 left"
log: "error: Too long evaluation. Execution aborted. [twice of /secure/master, object /secure/master]"
log: "1: 7, 0 left"
log: "error: Too long evaluation. Execution aborted. [twice of /secure/master, object /secure/master]"
log: "2: 7, 0 left"
log: "error: Too long evaluation. Execution aborted. [part of /b, object /b]"
log: "3: 7, 0 left"
log: "error: Too long evaluation. Execution aborted. [twice of /secure/master, object /secure/master]"
log: "4: 7, 0 left"
log: "error: Too long evaluation. Execution aborted. [twice of /secure/master, object /secure/master]"
log: "5: 7, 0 left"
log: "error: Too long evaluation. Execution aborted. [part of /b, object /b]"
log: "6: 7, 0 left"
log: "error: Too long evaluation. Execution aborted. [twice of /secure/master, object /secure/master]"
log: "7: 7, 0 left"
log: "error: Too long evaluation. Execution aborted. [go of /secure/master, object /secure/master]"
log: "8: 25, 0 left"
log: "error: Too long evaluation. Execution aborted. [go of /secure/master, object /secure/master]"
log: "9: 25, 1 left"
end

=== a_load_with_a_parent
# An efun, and 1000 for each file. The parent's first values are an entry, an entry of `f`, and its sum; its `create` is an entry and a
# step. The heir's are those, its own entry, and that `create`. Where what is not paid is no function's, who asked for the load is
# named. An object is there once its file, and those of its parents, are paid for. Nothing of it is caught.
code: x = catch(load_object("/c"));
--- play
connect 1
line 1: loads 0 1 1000 1001 2000 2001 2002 2003 2004 2005 2006 2007 2008 2009 2010 2011 2012 2013
tick 0
end
--- written
log: "error: Too long evaluation. Execution aborted. [go of /secure/master, object /secure/master]"
log: "0: 7, 0 left"
log: "error: Too long evaluation. Execution aborted. [go of /secure/master, object /secure/master]"
log: "1: 7, 0 left"
log: "error: Too long evaluation. Execution aborted. [go of /secure/master, object /secure/master]"
log: "1000: 7, 0 left"
log: "error: Too long evaluation. Execution aborted. [go of /secure/master, object /secure/master]"
log: "1001: 7, 0 left"
log: "error: Too long evaluation. Execution aborted. [go of /secure/master, object /secure/master]"
log: "2000: 7, 0 left"
log: "error: Too long evaluation. Execution aborted. [go of /secure/master, object /secure/master]"
log: "2001: 7, 0 left, the parent"
log: "error: Too long evaluation. Execution aborted. [__INIT of /p, object /p]"
log: "2002: 7, 0 left, the parent"
log: "error: Too long evaluation. Execution aborted. [f of /p, object /p]"
log: "2003: 7, 0 left, the parent"
log: "error: Too long evaluation. Execution aborted. [go of /secure/master, object /secure/master]"
log: "2004: 7, 0 left, the parent"
log: "error: Too long evaluation. Execution aborted. [create of /p, object /p]"
log: "2005: 7, 0 left, the parent"
log: "error: Too long evaluation. Execution aborted. [go of /secure/master, object /secure/master]"
log: "2006: 7, 0 left, the parent, the heir"
log: "error: Too long evaluation. Execution aborted. [__INIT of /p, object /c]"
log: "2007: 7, 0 left, the parent, the heir"
log: "error: Too long evaluation. Execution aborted. [f of /p, object /c]"
log: "2008: 7, 0 left, the parent, the heir"
log: "error: Too long evaluation. Execution aborted. [go of /secure/master, object /secure/master]"
log: "2009: 7, 0 left, the parent, the heir"
log: "error: Too long evaluation. Execution aborted. [go of /secure/master, object /secure/master]"
log: "2010: 7, 0 left, the parent, the heir"
log: "error: Too long evaluation. Execution aborted. [create of /p, object /c]"
log: "2011: 7, 0 left, the parent, the heir"
log: "error: Too long evaluation. Execution aborted. [go of /secure/master, object /secure/master]"
log: "2012: 0, 0 left, the parent, the heir"
log: "error: Too long evaluation. Execution aborted. [go of /secure/master, object /secure/master]"
log: "2013: 0, 1 left, the parent, the heir"
end

=== what_a_spent_budget_leaves
# The parent was made, and stays with its first value, without its `create`. The next load goes on from there, and costs an efun, 1000
# and six. What lives then costs an efun alone, and the value of the parent is what it was.
code: x = catch(load_object("/c"));
--- play
connect 1
line 1: each 2004
line 1: later parent
line 1: each 1007 1 0
line 1: later asks
tick 0
end
--- written
log: "error: Too long evaluation. Execution aborted. [go of /secure/master, object /secure/master]"
log: "2004: 7, 0 left"
log: "3"
log: "error: Too long evaluation. Execution aborted. [go of /secure/master, object /secure/master]"
log: "1007: 0, 0 left"
log: "error: Too long evaluation. Execution aborted. [go of /secure/master, object /secure/master]"
log: "1: 0, 0 left"
log: "error: Too long evaluation. Execution aborted. [go of /secure/master, object /secure/master]"
log: "0: 7, 0 left"
log: "3 4 45"
end

=== a_call_loads_what_it_names
# It is an efun and an entry, and with the load of its object 1000 and five more. What could be loaded is there for the next call.
code: x = "/p"->v();
--- play
connect 1
line 1: loads 1000 1006 1007
line 1: each 0 1 2 3
tick 0
end
--- written
log: "error: Too long evaluation. Execution aborted. [go of /secure/master, object /secure/master]"
log: "1000: 7, 0 left"
log: "error: Too long evaluation. Execution aborted. [go of /secure/master, object /secure/master]"
log: "1006: 7, 0 left, the parent"
log: "error: Too long evaluation. Execution aborted. [go of /secure/master, object /secure/master]"
log: "1007: 4, 0 left, the parent"
log: "error: Too long evaluation. Execution aborted. [go of /secure/master, object /secure/master]"
log: "0: 7, 0 left"
log: "error: Too long evaluation. Execution aborted. [go of /secure/master, object /secure/master]"
log: "1: 7, 0 left"
log: "error: Too long evaluation. Execution aborted. [go of /secure/master, object /secure/master]"
log: "2: 4, 0 left"
log: "error: Too long evaluation. Execution aborted. [go of /secure/master, object /secure/master]"
log: "3: 4, 1 left"
end

=== a_shadow_that_is_refused_costs_an_efun
# The master is not asked.
code: x = shadow(proud);
--- play
connect 1
line 1: each 0 1 2
tick 0
end
--- written
log: "error: Too long evaluation. Execution aborted. [go of /secure/master, object /secure/master]"
log: "0: 7, 0 left"
log: "error: Too long evaluation. Execution aborted. [go of /secure/master, object /secure/master]"
log: "1: 0, 0 left"
log: "error: Too long evaluation. Execution aborted. [go of /secure/master, object /secure/master]"
log: "2: 0, 1 left"
end

=== a_shadow_for_which_the_master_is_asked_costs_an_entry_more
# The entry of the master's function is not paid with 1.
code: x = shadow(o);
--- play
connect 1
line 1: each 0 1 2 3
tick 0
end
--- written
log: "error: Too long evaluation. Execution aborted. [go of /secure/master, object /secure/master]"
log: "0: 7, 0 left"
log: "error: Too long evaluation. Execution aborted. [go of /secure/master, object /secure/master]"
log: "1: 7, 0 left"
log: "error: Too long evaluation. Execution aborted. [go of /secure/master, object /secure/master]"
log: "2: 0, 0 left"
log: "error: Too long evaluation. Execution aborted. [go of /secure/master, object /secure/master]"
log: "3: 0, 1 left"
end

=== function_exists_costs_an_efun
code: x = function_exists("v", proud);
--- play
connect 1
line 1: each 0 1 2
tick 0
end
--- written
log: "error: Too long evaluation. Execution aborted. [go of /secure/master, object /secure/master]"
log: "0: 7, 0 left"
log: "error: Too long evaluation. Execution aborted. [go of /secure/master, object /secure/master]"
log: "1: /proud, 0 left"
log: "error: Too long evaluation. Execution aborted. [go of /secure/master, object /secure/master]"
log: "2: /proud, 1 left"
end

=== a_load_that_no_function_asked_for
# The driver loads an heir of two, which costs 1000, of which the first one costs 1000 and its `create` an entry; 501 for the first text
# and 54009 for the second, 940753 and 1801 for the loops, and an efun. With the 934 that are left the second one's file is not paid
# for: the record tells no place, and the heir is not there.
--- /heir.c
inherit "/long"; inherit "/p";
--- /long.c
void create() {
  string s; int i;
  s = sprintf("%8000s", ""); s = s + s + s + s + s + s + s + s + s + s;
  for (i = 0; i < 188; i++) s[0..0];
  for (i = 0; i < 600; i++) ;
  write("so far");
}
--- /secure/master.c
string get_simul_efun() { return "/heir"; }
object connect() { return this_object(); }
int logon() { write(sprintf("%O %O %O", find_object("/long"), find_object("/p"), find_object("/heir"))); return 1; }
--- play
connect 1
end
--- written
log: "so far"
log: "error: Too long evaluation. Execution aborted."
to 1: "/long 0 0"
end
