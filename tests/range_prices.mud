# What the ends of a range cost: a text, an array or a mapping there counts by its length with that of the value, one for each sixteen,
# before the range acts, also where it is no end and the range is an error. `t` has 65536 letters. A turn of the loop and `n++` cost 1
# each, and 999999 are left once `go` is entered.
--- /secure/master.c
string t;
int n;
object connect() { return this_object(); }
void create() { int i; t = "abcdefgh"; for (i = 0; i < 13; i++) t += t; }
int logon() { call_out("go", 1); call_out("told", 1); return 1; }
void go() { while (1) { n++; catch(@@); } }
void told() { write(n); }
--- play
connect 1
tick 1
end

=== integers
# 1 for the range: 333333 turns spend all.
code: "a"[0..0]
--- written
log: "error: Too long evaluation. Execution aborted. [go of /secure/master, object /secure/master]"
log: "333333"
end

=== first_end
# 1 + 65537 / 16 for the range: 243 turns take 996057, and `n++` is reached once more.
code: "a"[t..0]
--- written
log: "error: Too long evaluation. Execution aborted. [go of /secure/master, object /secure/master]"
log: "244"
end

=== last_end
code: "a"[0..t]
--- written
log: "error: Too long evaluation. Execution aborted. [go of /secure/master, object /secure/master]"
log: "244"
end

=== both_ends
# 1 + 131073 / 16 for the range: 122 turns take 999790.
code: "a"[t..t]
--- written
log: "error: Too long evaluation. Execution aborted. [go of /secure/master, object /secure/master]"
log: "123"
end

=== array_from_behind
# An array of 10000 items counts 625: 999999 / (2 + 626) is 1592 turns, and 223 are left.
--- /secure/master.c
int *a;
int n;
object connect() { return this_object(); }
void create() { a = allocate(10000); }
int logon() { call_out("go", 1); call_out("told", 1); return 1; }
void go() { while (1) { n++; catch("a"[<a..]); } }
void told() { write(n); }
--- written
log: "error: Too long evaluation. Execution aborted. [go of /secure/master, object /secure/master]"
log: "1593"
end
