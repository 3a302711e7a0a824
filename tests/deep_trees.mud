# What is nested as deep as it may be has a program, which runs. A row is the file /t, whose function `f` is called with
# 1; the master writes its value. That once more is a fault is shown in nesting.mud.
--- /t.c
@@
--- /secure/master.c
object connect() { return this_object(); }
int logon() { write(sprintf("%O", load_object("/t")->f(1))); return 1; }
--- play
connect 1
end

=== operators
# 197 operators before a parameter, of which an odd number makes 1 to 0.
code: int f(int n) { return !!!!!!!!!!!!!!!!!!!!!!!!!!!!!!!!!!!!!!!!!!!!!!!!!!!!!!!!!!!!!!!!!!!!!!!!!!!!!!!!!!!!!!!!!!!!!!!!!!!!!!!!!!!!!!!!!!!!!!!!!!!!!!!!!!!!!!!!!!!!!!!!!!!!!!!!!!!!!!!!!!!!!!!!!!!!!!!!!!!!!!!!!!!!!!!!!!!!!n; }
gives: "0"

=== parentheses
# 197 pairs of parentheses round a parameter.
code: int f(int n) { return (((((((((((((((((((((((((((((((((((((((((((((((((((((((((((((((((((((((((((((((((((((((((((((((((((((((((((((((((((((((((((((((((((((((((((((((((((((((((((((((((((((((((((((((((((((((((((((((((((((n))))))))))))))))))))))))))))))))))))))))))))))))))))))))))))))))))))))))))))))))))))))))))))))))))))))))))))))))))))))))))))))))))))))))))))))))))))))))))))))))))))))))))))))))))))))))))))))))))))); }
gives: "1"

=== indexes
# 197 indexes of an array that holds itself.
code: mixed f(mixed n) { n = ({ 0 }); n[0] = n; return n == n[0][0][0][0][0][0][0][0][0][0][0][0][0][0][0][0][0][0][0][0][0][0][0][0][0][0][0][0][0][0][0][0][0][0][0][0][0][0][0][0][0][0][0][0][0][0][0][0][0][0][0][0][0][0][0][0][0][0][0][0][0][0][0][0][0][0][0][0][0][0][0][0][0][0][0][0][0][0][0][0][0][0][0][0][0][0][0][0][0][0][0][0][0][0][0][0][0][0][0][0][0][0][0][0][0][0][0][0][0][0][0][0][0][0][0][0][0][0][0][0][0][0][0][0][0][0][0][0][0][0][0][0][0][0][0][0][0][0][0][0][0][0][0][0][0][0][0][0][0][0][0][0][0][0][0][0][0][0][0][0][0][0][0][0][0][0][0][0][0][0][0][0][0][0][0][0][0][0][0][0][0][0][0][0][0][0][0][0][0][0][0][0][0][0][0][0]; }
gives: "1"

=== arrays
# 197 arrays in one another. They are spelled up to the twentieth.
code: mixed f() { return ({ 1, ({ 1, ({ 1, ({ 1, ({ 1, ({ 1, ({ 1, ({ 1, ({ 1, ({ 1, ({ 1, ({ 1, ({ 1, ({ 1, ({ 1, ({ 1, ({ 1, ({ 1, ({ 1, ({ 1, ({ 1, ({ 1, ({ 1, ({ 1, ({ 1, ({ 1, ({ 1, ({ 1, ({ 1, ({ 1, ({ 1, ({ 1, ({ 1, ({ 1, ({ 1, ({ 1, ({ 1, ({ 1, ({ 1, ({ 1, ({ 1, ({ 1, ({ 1, ({ 1, ({ 1, ({ 1, ({ 1, ({ 1, ({ 1, ({ 1, ({ 1, ({ 1, ({ 1, ({ 1, ({ 1, ({ 1, ({ 1, ({ 1, ({ 1, ({ 1, ({ 1, ({ 1, ({ 1, ({ 1, ({ 1, ({ 1, ({ 1, ({ 1, ({ 1, ({ 1, ({ 1, ({ 1, ({ 1, ({ 1, ({ 1, ({ 1, ({ 1, ({ 1, ({ 1, ({ 1, ({ 1, ({ 1, ({ 1, ({ 1, ({ 1, ({ 1, ({ 1, ({ 1, ({ 1, ({ 1, ({ 1, ({ 1, ({ 1, ({ 1, ({ 1, ({ 1, ({ 1, ({ 1, ({ 1, ({ 1, ({ 1, ({ 1, ({ 1, ({ 1, ({ 1, ({ 1, ({ 1, ({ 1, ({ 1, ({ 1, ({ 1, ({ 1, ({ 1, ({ 1, ({ 1, ({ 1, ({ 1, ({ 1, ({ 1, ({ 1, ({ 1, ({ 1, ({ 1, ({ 1, ({ 1, ({ 1, ({ 1, ({ 1, ({ 1, ({ 1, ({ 1, ({ 1, ({ 1, ({ 1, ({ 1, ({ 1, ({ 1, ({ 1, ({ 1, ({ 1, ({ 1, ({ 1, ({ 1, ({ 1, ({ 1, ({ 1, ({ 1, ({ 1, ({ 1, ({ 1, ({ 1, ({ 1, ({ 1, ({ 1, ({ 1, ({ 1, ({ 1, ({ 1, ({ 1, ({ 1, ({ 1, ({ 1, ({ 1, ({ 1, ({ 1, ({ 1, ({ 1, ({ 1, ({ 1, ({ 1, ({ 1, ({ 1, ({ 1, ({ 1, ({ 1, ({ 1, ({ 1, ({ 1, ({ 1, ({ 1, ({ 1, ({ 1, ({ 1, ({ 1, ({ 1, ({ 1, ({ 1, ({ 1, ({ 1, ({ 1, ({ 1, ({ 1, ({ 1, ({ 1, ({ 1, ({ 1, ({ 1, 2})})})})})})})})})})})})})})})})})})})})})})})})})})})})})})})})})})})})})})})})})})})})})})})})})})})})})})})})})})})})})})})})})})})})})})})})})})})})})})})})})})})})})})})})})})})})})})})})})})})})})})})})})})})})})})})})})})})})})})})})})})})})})})})})})})})})})})})})})})})})})})})})})})})})})})})})})})})})})})})})})})})})})})})})})})})})})})})})})})})})})})})})})})})})})})})})})})})})}); }
gives: "({ 1, ({ 1, ({ 1, ({ 1, ({ 1, ({ 1, ({ 1, ({ 1, ({ 1, ({ 1, ({ 1, ({ 1, ({ 1, ({ 1, ({ 1, ({ 1, ({ 1, ({ 1, ({ 1, ({ 1, <...> }) }) }) }) }) }) }) }) }) }) }) }) }) }) }) }) }) }) }) })"

=== blocks
# 199 blocks in one another, with nothing in them.
code: int f() {{{{{{{{{{{{{{{{{{{{{{{{{{{{{{{{{{{{{{{{{{{{{{{{{{{{{{{{{{{{{{{{{{{{{{{{{{{{{{{{{{{{{{{{{{{{{{{{{{{{{{{{{{{{{{{{{{{{{{{{{{{{{{{{{{{{{{{{{{{{{{{{{{{{{{{{{{{{{{{{{{{{{{{{{{{{{{{{{{{{{{{{{{{{{{{{{{{{{{{{}}}}}}}}}}}}}}}}}}}}}}}}}}}}}}}}}}}}}}}}}}}}}}}}}}}}}}}}}}}}}}}}}}}}}}}}}}}}}}}}}}}}}}}}}}}}}}}}}}}}}}}}}}}}}}}}}}}}}}}}}}}}}}}}}}}}}}}}}}}}}}}}}}}}}}}}}}}}}}}}}}}}}}}}}}}}}}}}}}}}}}}}}}}}}}}}}}}}}}}}
gives: "0"

=== return_in_blocks
# 197 blocks, a return and its value.
code: int f() {{{{{{{{{{{{{{{{{{{{{{{{{{{{{{{{{{{{{{{{{{{{{{{{{{{{{{{{{{{{{{{{{{{{{{{{{{{{{{{{{{{{{{{{{{{{{{{{{{{{{{{{{{{{{{{{{{{{{{{{{{{{{{{{{{{{{{{{{{{{{{{{{{{{{{{{{{{{{{{{{{{{{{{{{{{{{{{{{{{{{{{{{{{{{{{{{{{{{{return 4; }}}}}}}}}}}}}}}}}}}}}}}}}}}}}}}}}}}}}}}}}}}}}}}}}}}}}}}}}}}}}}}}}}}}}}}}}}}}}}}}}}}}}}}}}}}}}}}}}}}}}}}}}}}}}}}}}}}}}}}}}}}}}}}}}}}}}}}}}}}}}}}}}}}}}}}}}}}}}}}}}}}}}}}}}}}}}}}}}}}}}}}}}}}}}}}}}}}}}}
gives: "4"

=== branches
# 198 branches, and the return in them.
code: int f(int n) {if (n) if (n) if (n) if (n) if (n) if (n) if (n) if (n) if (n) if (n) if (n) if (n) if (n) if (n) if (n) if (n) if (n) if (n) if (n) if (n) if (n) if (n) if (n) if (n) if (n) if (n) if (n) if (n) if (n) if (n) if (n) if (n) if (n) if (n) if (n) if (n) if (n) if (n) if (n) if (n) if (n) if (n) if (n) if (n) if (n) if (n) if (n) if (n) if (n) if (n) if (n) if (n) if (n) if (n) if (n) if (n) if (n) if (n) if (n) if (n) if (n) if (n) if (n) if (n) if (n) if (n) if (n) if (n) if (n) if (n) if (n) if (n) if (n) if (n) if (n) if (n) if (n) if (n) if (n) if (n) if (n) if (n) if (n) if (n) if (n) if (n) if (n) if (n) if (n) if (n) if (n) if (n) if (n) if (n) if (n) if (n) if (n) if (n) if (n) if (n) if (n) if (n) if (n) if (n) if (n) if (n) if (n) if (n) if (n) if (n) if (n) if (n) if (n) if (n) if (n) if (n) if (n) if (n) if (n) if (n) if (n) if (n) if (n) if (n) if (n) if (n) if (n) if (n) if (n) if (n) if (n) if (n) if (n) if (n) if (n) if (n) if (n) if (n) if (n) if (n) if (n) if (n) if (n) if (n) if (n) if (n) if (n) if (n) if (n) if (n) if (n) if (n) if (n) if (n) if (n) if (n) if (n) if (n) if (n) if (n) if (n) if (n) if (n) if (n) if (n) if (n) if (n) if (n) if (n) if (n) if (n) if (n) if (n) if (n) if (n) if (n) if (n) if (n) if (n) if (n) if (n) if (n) if (n) if (n) if (n) if (n) if (n) if (n) if (n) if (n) if (n) if (n) if (n) if (n) if (n) if (n) if (n) return 5;}
gives: "5"

=== loops
# 198 loops in one another, all left at once.
code: int f(int n) {while (n) while (n) while (n) while (n) while (n) while (n) while (n) while (n) while (n) while (n) while (n) while (n) while (n) while (n) while (n) while (n) while (n) while (n) while (n) while (n) while (n) while (n) while (n) while (n) while (n) while (n) while (n) while (n) while (n) while (n) while (n) while (n) while (n) while (n) while (n) while (n) while (n) while (n) while (n) while (n) while (n) while (n) while (n) while (n) while (n) while (n) while (n) while (n) while (n) while (n) while (n) while (n) while (n) while (n) while (n) while (n) while (n) while (n) while (n) while (n) while (n) while (n) while (n) while (n) while (n) while (n) while (n) while (n) while (n) while (n) while (n) while (n) while (n) while (n) while (n) while (n) while (n) while (n) while (n) while (n) while (n) while (n) while (n) while (n) while (n) while (n) while (n) while (n) while (n) while (n) while (n) while (n) while (n) while (n) while (n) while (n) while (n) while (n) while (n) while (n) while (n) while (n) while (n) while (n) while (n) while (n) while (n) while (n) while (n) while (n) while (n) while (n) while (n) while (n) while (n) while (n) while (n) while (n) while (n) while (n) while (n) while (n) while (n) while (n) while (n) while (n) while (n) while (n) while (n) while (n) while (n) while (n) while (n) while (n) while (n) while (n) while (n) while (n) while (n) while (n) while (n) while (n) while (n) while (n) while (n) while (n) while (n) while (n) while (n) while (n) while (n) while (n) while (n) while (n) while (n) while (n) while (n) while (n) while (n) while (n) while (n) while (n) while (n) while (n) while (n) while (n) while (n) while (n) while (n) while (n) while (n) while (n) while (n) while (n) while (n) while (n) while (n) while (n) while (n) while (n) while (n) while (n) while (n) while (n) while (n) while (n) while (n) while (n) while (n) while (n) while (n) while (n) while (n) while (n) while (n) while (n) while (n) return 6;}
gives: "6"

=== loops_with_a_body
# 98 loops of two levels each, each of which ends at its first test: n falls by 1 in each.
code: int f(int n) { n = 98; do { --n; do { --n; do { --n; do { --n; do { --n; do { --n; do { --n; do { --n; do { --n; do { --n; do { --n; do { --n; do { --n; do { --n; do { --n; do { --n; do { --n; do { --n; do { --n; do { --n; do { --n; do { --n; do { --n; do { --n; do { --n; do { --n; do { --n; do { --n; do { --n; do { --n; do { --n; do { --n; do { --n; do { --n; do { --n; do { --n; do { --n; do { --n; do { --n; do { --n; do { --n; do { --n; do { --n; do { --n; do { --n; do { --n; do { --n; do { --n; do { --n; do { --n; do { --n; do { --n; do { --n; do { --n; do { --n; do { --n; do { --n; do { --n; do { --n; do { --n; do { --n; do { --n; do { --n; do { --n; do { --n; do { --n; do { --n; do { --n; do { --n; do { --n; do { --n; do { --n; do { --n; do { --n; do { --n; do { --n; do { --n; do { --n; do { --n; do { --n; do { --n; do { --n; do { --n; do { --n; do { --n; do { --n; do { --n; do { --n; do { --n; do { --n; do { --n; do { --n; do { --n; do { --n; do { --n; do { --n; do { --n; do { --n; ;} while (n > 0);} while (n > 0);} while (n > 0);} while (n > 0);} while (n > 0);} while (n > 0);} while (n > 0);} while (n > 0);} while (n > 0);} while (n > 0);} while (n > 0);} while (n > 0);} while (n > 0);} while (n > 0);} while (n > 0);} while (n > 0);} while (n > 0);} while (n > 0);} while (n > 0);} while (n > 0);} while (n > 0);} while (n > 0);} while (n > 0);} while (n > 0);} while (n > 0);} while (n > 0);} while (n > 0);} while (n > 0);} while (n > 0);} while (n > 0);} while (n > 0);} while (n > 0);} while (n > 0);} while (n > 0);} while (n > 0);} while (n > 0);} while (n > 0);} while (n > 0);} while (n > 0);} while (n > 0);} while (n > 0);} while (n > 0);} while (n > 0);} while (n > 0);} while (n > 0);} while (n > 0);} while (n > 0);} while (n > 0);} while (n > 0);} while (n > 0);} while (n > 0);} while (n > 0);} while (n > 0);} while (n > 0);} while (n > 0);} while (n > 0);} while (n > 0);} while (n > 0);} while (n > 0);} while (n > 0);} while (n > 0);} while (n > 0);} while (n > 0);} while (n > 0);} while (n > 0);} while (n > 0);} while (n > 0);} while (n > 0);} while (n > 0);} while (n > 0);} while (n > 0);} while (n > 0);} while (n > 0);} while (n > 0);} while (n > 0);} while (n > 0);} while (n > 0);} while (n > 0);} while (n > 0);} while (n > 0);} while (n > 0);} while (n > 0);} while (n > 0);} while (n > 0);} while (n > 0);} while (n > 0);} while (n > 0);} while (n > 0);} while (n > 0);} while (n > 0);} while (n > 0);} while (n > 0);} while (n > 0);} while (n > 0);} while (n > 0);} while (n > 0);} while (n > 0);} while (n > 0); return n; }
gives: "0"

=== sum
# 190 texts one behind the other, the first of which lies deepest.
code: int f() { return strlen("" + "ab" + "ab" + "ab" + "ab" + "ab" + "ab" + "ab" + "ab" + "ab" + "ab" + "ab" + "ab" + "ab" + "ab" + "ab" + "ab" + "ab" + "ab" + "ab" + "ab" + "ab" + "ab" + "ab" + "ab" + "ab" + "ab" + "ab" + "ab" + "ab" + "ab" + "ab" + "ab" + "ab" + "ab" + "ab" + "ab" + "ab" + "ab" + "ab" + "ab" + "ab" + "ab" + "ab" + "ab" + "ab" + "ab" + "ab" + "ab" + "ab" + "ab" + "ab" + "ab" + "ab" + "ab" + "ab" + "ab" + "ab" + "ab" + "ab" + "ab" + "ab" + "ab" + "ab" + "ab" + "ab" + "ab" + "ab" + "ab" + "ab" + "ab" + "ab" + "ab" + "ab" + "ab" + "ab" + "ab" + "ab" + "ab" + "ab" + "ab" + "ab" + "ab" + "ab" + "ab" + "ab" + "ab" + "ab" + "ab" + "ab" + "ab" + "ab" + "ab" + "ab" + "ab" + "ab" + "ab" + "ab" + "ab" + "ab" + "ab" + "ab" + "ab" + "ab" + "ab" + "ab" + "ab" + "ab" + "ab" + "ab" + "ab" + "ab" + "ab" + "ab" + "ab" + "ab" + "ab" + "ab" + "ab" + "ab" + "ab" + "ab" + "ab" + "ab" + "ab" + "ab" + "ab" + "ab" + "ab" + "ab" + "ab" + "ab" + "ab" + "ab" + "ab" + "ab" + "ab" + "ab" + "ab" + "ab" + "ab" + "ab" + "ab" + "ab" + "ab" + "ab" + "ab" + "ab" + "ab" + "ab" + "ab" + "ab" + "ab" + "ab" + "ab" + "ab" + "ab" + "ab" + "ab" + "ab" + "ab" + "ab" + "ab" + "ab" + "ab" + "ab" + "ab" + "ab" + "ab" + "ab" + "ab" + "ab" + "ab" + "ab" + "ab" + "ab" + "ab" + "ab" + "ab" + "ab" + "ab" + "ab" + "ab" + "ab" + "ab" + "ab" + "ab" + "ab" + "ab" + "ab" + "ab"); }
gives: "380"

=== many_statements
# A thousand statements.
code: int f(int n) {
code: n = n + 1; n = n + 1; n = n + 1; n = n + 1; n = n + 1; n = n + 1; n = n + 1; n = n + 1; n = n + 1; n = n + 1;
code: n = n + 1; n = n + 1; n = n + 1; n = n + 1; n = n + 1; n = n + 1; n = n + 1; n = n + 1; n = n + 1; n = n + 1;
code: n = n + 1; n = n + 1; n = n + 1; n = n + 1; n = n + 1; n = n + 1; n = n + 1; n = n + 1; n = n + 1; n = n + 1;
code: n = n + 1; n = n + 1; n = n + 1; n = n + 1; n = n + 1; n = n + 1; n = n + 1; n = n + 1; n = n + 1; n = n + 1;
code: n = n + 1; n = n + 1; n = n + 1; n = n + 1; n = n + 1; n = n + 1; n = n + 1; n = n + 1; n = n + 1; n = n + 1;
code: n = n + 1; n = n + 1; n = n + 1; n = n + 1; n = n + 1; n = n + 1; n = n + 1; n = n + 1; n = n + 1; n = n + 1;
code: n = n + 1; n = n + 1; n = n + 1; n = n + 1; n = n + 1; n = n + 1; n = n + 1; n = n + 1; n = n + 1; n = n + 1;
code: n = n + 1; n = n + 1; n = n + 1; n = n + 1; n = n + 1; n = n + 1; n = n + 1; n = n + 1; n = n + 1; n = n + 1;
code: n = n + 1; n = n + 1; n = n + 1; n = n + 1; n = n + 1; n = n + 1; n = n + 1; n = n + 1; n = n + 1; n = n + 1;
code: n = n + 1; n = n + 1; n = n + 1; n = n + 1; n = n + 1; n = n + 1; n = n + 1; n = n + 1; n = n + 1; n = n + 1;
code: n = n + 1; n = n + 1; n = n + 1; n = n + 1; n = n + 1; n = n + 1; n = n + 1; n = n + 1; n = n + 1; n = n + 1;
code: n = n + 1; n = n + 1; n = n + 1; n = n + 1; n = n + 1; n = n + 1; n = n + 1; n = n + 1; n = n + 1; n = n + 1;
code: n = n + 1; n = n + 1; n = n + 1; n = n + 1; n = n + 1; n = n + 1; n = n + 1; n = n + 1; n = n + 1; n = n + 1;
code: n = n + 1; n = n + 1; n = n + 1; n = n + 1; n = n + 1; n = n + 1; n = n + 1; n = n + 1; n = n + 1; n = n + 1;
code: n = n + 1; n = n + 1; n = n + 1; n = n + 1; n = n + 1; n = n + 1; n = n + 1; n = n + 1; n = n + 1; n = n + 1;
code: n = n + 1; n = n + 1; n = n + 1; n = n + 1; n = n + 1; n = n + 1; n = n + 1; n = n + 1; n = n + 1; n = n + 1;
code: n = n + 1; n = n + 1; n = n + 1; n = n + 1; n = n + 1; n = n + 1; n = n + 1; n = n + 1; n = n + 1; n = n + 1;
code: n = n + 1; n = n + 1; n = n + 1; n = n + 1; n = n + 1; n = n + 1; n = n + 1; n = n + 1; n = n + 1; n = n + 1;
code: n = n + 1; n = n + 1; n = n + 1; n = n + 1; n = n + 1; n = n + 1; n = n + 1; n = n + 1; n = n + 1; n = n + 1;
code: n = n + 1; n = n + 1; n = n + 1; n = n + 1; n = n + 1; n = n + 1; n = n + 1; n = n + 1; n = n + 1; n = n + 1;
code: n = n + 1; n = n + 1; n = n + 1; n = n + 1; n = n + 1; n = n + 1; n = n + 1; n = n + 1; n = n + 1; n = n + 1;
code: n = n + 1; n = n + 1; n = n + 1; n = n + 1; n = n + 1; n = n + 1; n = n + 1; n = n + 1; n = n + 1; n = n + 1;
code: n = n + 1; n = n + 1; n = n + 1; n = n + 1; n = n + 1; n = n + 1; n = n + 1; n = n + 1; n = n + 1; n = n + 1;
code: n = n + 1; n = n + 1; n = n + 1; n = n + 1; n = n + 1; n = n + 1; n = n + 1; n = n + 1; n = n + 1; n = n + 1;
code: n = n + 1; n = n + 1; n = n + 1; n = n + 1; n = n + 1; n = n + 1; n = n + 1; n = n + 1; n = n + 1; n = n + 1;
code: n = n + 1; n = n + 1; n = n + 1; n = n + 1; n = n + 1; n = n + 1; n = n + 1; n = n + 1; n = n + 1; n = n + 1;
code: n = n + 1; n = n + 1; n = n + 1; n = n + 1; n = n + 1; n = n + 1; n = n + 1; n = n + 1; n = n + 1; n = n + 1;
code: n = n + 1; n = n + 1; n = n + 1; n = n + 1; n = n + 1; n = n + 1; n = n + 1; n = n + 1; n = n + 1; n = n + 1;
code: n = n + 1; n = n + 1; n = n + 1; n = n + 1; n = n + 1; n = n + 1; n = n + 1; n = n + 1; n = n + 1; n = n + 1;
code: n = n + 1; n = n + 1; n = n + 1; n = n + 1; n = n + 1; n = n + 1; n = n + 1; n = n + 1; n = n + 1; n = n + 1;
code: n = n + 1; n = n + 1; n = n + 1; n = n + 1; n = n + 1; n = n + 1; n = n + 1; n = n + 1; n = n + 1; n = n + 1;
code: n = n + 1; n = n + 1; n = n + 1; n = n + 1; n = n + 1; n = n + 1; n = n + 1; n = n + 1; n = n + 1; n = n + 1;
code: n = n + 1; n = n + 1; n = n + 1; n = n + 1; n = n + 1; n = n + 1; n = n + 1; n = n + 1; n = n + 1; n = n + 1;
code: n = n + 1; n = n + 1; n = n + 1; n = n + 1; n = n + 1; n = n + 1; n = n + 1; n = n + 1; n = n + 1; n = n + 1;
code: n = n + 1; n = n + 1; n = n + 1; n = n + 1; n = n + 1; n = n + 1; n = n + 1; n = n + 1; n = n + 1; n = n + 1;
code: n = n + 1; n = n + 1; n = n + 1; n = n + 1; n = n + 1; n = n + 1; n = n + 1; n = n + 1; n = n + 1; n = n + 1;
code: n = n + 1; n = n + 1; n = n + 1; n = n + 1; n = n + 1; n = n + 1; n = n + 1; n = n + 1; n = n + 1; n = n + 1;
code: n = n + 1; n = n + 1; n = n + 1; n = n + 1; n = n + 1; n = n + 1; n = n + 1; n = n + 1; n = n + 1; n = n + 1;
code: n = n + 1; n = n + 1; n = n + 1; n = n + 1; n = n + 1; n = n + 1; n = n + 1; n = n + 1; n = n + 1; n = n + 1;
code: n = n + 1; n = n + 1; n = n + 1; n = n + 1; n = n + 1; n = n + 1; n = n + 1; n = n + 1; n = n + 1; n = n + 1;
code: n = n + 1; n = n + 1; n = n + 1; n = n + 1; n = n + 1; n = n + 1; n = n + 1; n = n + 1; n = n + 1; n = n + 1;
code: n = n + 1; n = n + 1; n = n + 1; n = n + 1; n = n + 1; n = n + 1; n = n + 1; n = n + 1; n = n + 1; n = n + 1;
code: n = n + 1; n = n + 1; n = n + 1; n = n + 1; n = n + 1; n = n + 1; n = n + 1; n = n + 1; n = n + 1; n = n + 1;
code: n = n + 1; n = n + 1; n = n + 1; n = n + 1; n = n + 1; n = n + 1; n = n + 1; n = n + 1; n = n + 1; n = n + 1;
code: n = n + 1; n = n + 1; n = n + 1; n = n + 1; n = n + 1; n = n + 1; n = n + 1; n = n + 1; n = n + 1; n = n + 1;
code: n = n + 1; n = n + 1; n = n + 1; n = n + 1; n = n + 1; n = n + 1; n = n + 1; n = n + 1; n = n + 1; n = n + 1;
code: n = n + 1; n = n + 1; n = n + 1; n = n + 1; n = n + 1; n = n + 1; n = n + 1; n = n + 1; n = n + 1; n = n + 1;
code: n = n + 1; n = n + 1; n = n + 1; n = n + 1; n = n + 1; n = n + 1; n = n + 1; n = n + 1; n = n + 1; n = n + 1;
code: n = n + 1; n = n + 1; n = n + 1; n = n + 1; n = n + 1; n = n + 1; n = n + 1; n = n + 1; n = n + 1; n = n + 1;
code: n = n + 1; n = n + 1; n = n + 1; n = n + 1; n = n + 1; n = n + 1; n = n + 1; n = n + 1; n = n + 1; n = n + 1;
code: n = n + 1; n = n + 1; n = n + 1; n = n + 1; n = n + 1; n = n + 1; n = n + 1; n = n + 1; n = n + 1; n = n + 1;
code: n = n + 1; n = n + 1; n = n + 1; n = n + 1; n = n + 1; n = n + 1; n = n + 1; n = n + 1; n = n + 1; n = n + 1;
code: n = n + 1; n = n + 1; n = n + 1; n = n + 1; n = n + 1; n = n + 1; n = n + 1; n = n + 1; n = n + 1; n = n + 1;
code: n = n + 1; n = n + 1; n = n + 1; n = n + 1; n = n + 1; n = n + 1; n = n + 1; n = n + 1; n = n + 1; n = n + 1;
code: n = n + 1; n = n + 1; n = n + 1; n = n + 1; n = n + 1; n = n + 1; n = n + 1; n = n + 1; n = n + 1; n = n + 1;
code: n = n + 1; n = n + 1; n = n + 1; n = n + 1; n = n + 1; n = n + 1; n = n + 1; n = n + 1; n = n + 1; n = n + 1;
code: n = n + 1; n = n + 1; n = n + 1; n = n + 1; n = n + 1; n = n + 1; n = n + 1; n = n + 1; n = n + 1; n = n + 1;
code: n = n + 1; n = n + 1; n = n + 1; n = n + 1; n = n + 1; n = n + 1; n = n + 1; n = n + 1; n = n + 1; n = n + 1;
code: n = n + 1; n = n + 1; n = n + 1; n = n + 1; n = n + 1; n = n + 1; n = n + 1; n = n + 1; n = n + 1; n = n + 1;
code: n = n + 1; n = n + 1; n = n + 1; n = n + 1; n = n + 1; n = n + 1; n = n + 1; n = n + 1; n = n + 1; n = n + 1;
code: n = n + 1; n = n + 1; n = n + 1; n = n + 1; n = n + 1; n = n + 1; n = n + 1; n = n + 1; n = n + 1; n = n + 1;
code: n = n + 1; n = n + 1; n = n + 1; n = n + 1; n = n + 1; n = n + 1; n = n + 1; n = n + 1; n = n + 1; n = n + 1;
code: n = n + 1; n = n + 1; n = n + 1; n = n + 1; n = n + 1; n = n + 1; n = n + 1; n = n + 1; n = n + 1; n = n + 1;
code: n = n + 1; n = n + 1; n = n + 1; n = n + 1; n = n + 1; n = n + 1; n = n + 1; n = n + 1; n = n + 1; n = n + 1;
code: n = n + 1; n = n + 1; n = n + 1; n = n + 1; n = n + 1; n = n + 1; n = n + 1; n = n + 1; n = n + 1; n = n + 1;
code: n = n + 1; n = n + 1; n = n + 1; n = n + 1; n = n + 1; n = n + 1; n = n + 1; n = n + 1; n = n + 1; n = n + 1;
code: n = n + 1; n = n + 1; n = n + 1; n = n + 1; n = n + 1; n = n + 1; n = n + 1; n = n + 1; n = n + 1; n = n + 1;
code: n = n + 1; n = n + 1; n = n + 1; n = n + 1; n = n + 1; n = n + 1; n = n + 1; n = n + 1; n = n + 1; n = n + 1;
code: n = n + 1; n = n + 1; n = n + 1; n = n + 1; n = n + 1; n = n + 1; n = n + 1; n = n + 1; n = n + 1; n = n + 1;
code: n = n + 1; n = n + 1; n = n + 1; n = n + 1; n = n + 1; n = n + 1; n = n + 1; n = n + 1; n = n + 1; n = n + 1;
code: n = n + 1; n = n + 1; n = n + 1; n = n + 1; n = n + 1; n = n + 1; n = n + 1; n = n + 1; n = n + 1; n = n + 1;
code: n = n + 1; n = n + 1; n = n + 1; n = n + 1; n = n + 1; n = n + 1; n = n + 1; n = n + 1; n = n + 1; n = n + 1;
code: n = n + 1; n = n + 1; n = n + 1; n = n + 1; n = n + 1; n = n + 1; n = n + 1; n = n + 1; n = n + 1; n = n + 1;
code: n = n + 1; n = n + 1; n = n + 1; n = n + 1; n = n + 1; n = n + 1; n = n + 1; n = n + 1; n = n + 1; n = n + 1;
code: n = n + 1; n = n + 1; n = n + 1; n = n + 1; n = n + 1; n = n + 1; n = n + 1; n = n + 1; n = n + 1; n = n + 1;
code: n = n + 1; n = n + 1; n = n + 1; n = n + 1; n = n + 1; n = n + 1; n = n + 1; n = n + 1; n = n + 1; n = n + 1;
code: n = n + 1; n = n + 1; n = n + 1; n = n + 1; n = n + 1; n = n + 1; n = n + 1; n = n + 1; n = n + 1; n = n + 1;
code: n = n + 1; n = n + 1; n = n + 1; n = n + 1; n = n + 1; n = n + 1; n = n + 1; n = n + 1; n = n + 1; n = n + 1;
code: n = n + 1; n = n + 1; n = n + 1; n = n + 1; n = n + 1; n = n + 1; n = n + 1; n = n + 1; n = n + 1; n = n + 1;
code: n = n + 1; n = n + 1; n = n + 1; n = n + 1; n = n + 1; n = n + 1; n = n + 1; n = n + 1; n = n + 1; n = n + 1;
code: n = n + 1; n = n + 1; n = n + 1; n = n + 1; n = n + 1; n = n + 1; n = n + 1; n = n + 1; n = n + 1; n = n + 1;
code: n = n + 1; n = n + 1; n = n + 1; n = n + 1; n = n + 1; n = n + 1; n = n + 1; n = n + 1; n = n + 1; n = n + 1;
code: n = n + 1; n = n + 1; n = n + 1; n = n + 1; n = n + 1; n = n + 1; n = n + 1; n = n + 1; n = n + 1; n = n + 1;
code: n = n + 1; n = n + 1; n = n + 1; n = n + 1; n = n + 1; n = n + 1; n = n + 1; n = n + 1; n = n + 1; n = n + 1;
code: n = n + 1; n = n + 1; n = n + 1; n = n + 1; n = n + 1; n = n + 1; n = n + 1; n = n + 1; n = n + 1; n = n + 1;
code: n = n + 1; n = n + 1; n = n + 1; n = n + 1; n = n + 1; n = n + 1; n = n + 1; n = n + 1; n = n + 1; n = n + 1;
code: n = n + 1; n = n + 1; n = n + 1; n = n + 1; n = n + 1; n = n + 1; n = n + 1; n = n + 1; n = n + 1; n = n + 1;
code: n = n + 1; n = n + 1; n = n + 1; n = n + 1; n = n + 1; n = n + 1; n = n + 1; n = n + 1; n = n + 1; n = n + 1;
code: n = n + 1; n = n + 1; n = n + 1; n = n + 1; n = n + 1; n = n + 1; n = n + 1; n = n + 1; n = n + 1; n = n + 1;
code: n = n + 1; n = n + 1; n = n + 1; n = n + 1; n = n + 1; n = n + 1; n = n + 1; n = n + 1; n = n + 1; n = n + 1;
code: n = n + 1; n = n + 1; n = n + 1; n = n + 1; n = n + 1; n = n + 1; n = n + 1; n = n + 1; n = n + 1; n = n + 1;
code: n = n + 1; n = n + 1; n = n + 1; n = n + 1; n = n + 1; n = n + 1; n = n + 1; n = n + 1; n = n + 1; n = n + 1;
code: n = n + 1; n = n + 1; n = n + 1; n = n + 1; n = n + 1; n = n + 1; n = n + 1; n = n + 1; n = n + 1; n = n + 1;
code: n = n + 1; n = n + 1; n = n + 1; n = n + 1; n = n + 1; n = n + 1; n = n + 1; n = n + 1; n = n + 1; n = n + 1;
code: n = n + 1; n = n + 1; n = n + 1; n = n + 1; n = n + 1; n = n + 1; n = n + 1; n = n + 1; n = n + 1; n = n + 1;
code: n = n + 1; n = n + 1; n = n + 1; n = n + 1; n = n + 1; n = n + 1; n = n + 1; n = n + 1; n = n + 1; n = n + 1;
code: n = n + 1; n = n + 1; n = n + 1; n = n + 1; n = n + 1; n = n + 1; n = n + 1; n = n + 1; n = n + 1; n = n + 1;
code: n = n + 1; n = n + 1; n = n + 1; n = n + 1; n = n + 1; n = n + 1; n = n + 1; n = n + 1; n = n + 1; n = n + 1;
code: n = n + 1; n = n + 1; n = n + 1; n = n + 1; n = n + 1; n = n + 1; n = n + 1; n = n + 1; n = n + 1; n = n + 1;
code: n = n + 1; n = n + 1; n = n + 1; n = n + 1; n = n + 1; n = n + 1; n = n + 1; n = n + 1; n = n + 1; n = n + 1;
code: return n; }
gives: "1001"

=== many_locals
# 255 parameters and 255 locals.
code: int f(int p0, int p1, int p2, int p3, int p4, int p5, int p6, int p7, int p8, int p9, int p10, int p11, int p12, int p13, int p14, int p15, int p16, int p17, int p18, int p19, int p20, int p21, int p22, int p23, int p24, int p25, int p26, int p27, int p28, int p29, int p30, int p31, int p32, int p33, int p34, int p35, int p36, int p37, int p38, int p39, int p40, int p41, int p42, int p43, int p44, int p45, int p46, int p47, int p48, int p49, int p50, int p51, int p52, int p53, int p54, int p55, int p56, int p57, int p58, int p59, int p60, int p61, int p62, int p63, int p64, int p65, int p66, int p67, int p68, int p69, int p70, int p71, int p72, int p73, int p74, int p75, int p76, int p77, int p78, int p79, int p80, int p81, int p82, int p83, int p84, int p85, int p86, int p87, int p88, int p89, int p90, int p91, int p92, int p93, int p94, int p95, int p96, int p97, int p98, int p99, int p100, int p101, int p102, int p103, int p104, int p105, int p106, int p107, int p108, int p109, int p110, int p111, int p112, int p113, int p114, int p115, int p116, int p117, int p118, int p119, int p120, int p121, int p122, int p123, int p124, int p125, int p126, int p127, int p128, int p129, int p130, int p131, int p132, int p133, int p134, int p135, int p136, int p137, int p138, int p139, int p140, int p141, int p142, int p143, int p144, int p145, int p146, int p147, int p148, int p149, int p150, int p151, int p152, int p153, int p154, int p155, int p156, int p157, int p158, int p159, int p160, int p161, int p162, int p163, int p164, int p165, int p166, int p167, int p168, int p169, int p170, int p171, int p172, int p173, int p174, int p175, int p176, int p177, int p178, int p179, int p180, int p181, int p182, int p183, int p184, int p185, int p186, int p187, int p188, int p189, int p190, int p191, int p192, int p193, int p194, int p195, int p196, int p197, int p198, int p199, int p200, int p201, int p202, int p203, int p204, int p205, int p206, int p207, int p208, int p209, int p210, int p211, int p212, int p213, int p214, int p215, int p216, int p217, int p218, int p219, int p220, int p221, int p222, int p223, int p224, int p225, int p226, int p227, int p228, int p229, int p230, int p231, int p232, int p233, int p234, int p235, int p236, int p237, int p238, int p239, int p240, int p241, int p242, int p243, int p244, int p245, int p246, int p247, int p248, int p249, int p250, int p251, int p252, int p253, int p254) { int v0 = p0 + 0, v1 = p7 + 1, v2 = p14 + 2, v3 = p21 + 3, v4 = p28 + 4, v5 = p35 + 5, v6 = p42 + 6, v7 = p49 + 7, v8 = p56 + 8, v9 = p63 + 9, v10 = p70 + 10, v11 = p77 + 11, v12 = p84 + 12, v13 = p91 + 13, v14 = p98 + 14, v15 = p105 + 15, v16 = p112 + 16, v17 = p119 + 17, v18 = p126 + 18, v19 = p133 + 19, v20 = p140 + 20, v21 = p147 + 21, v22 = p154 + 22, v23 = p161 + 23, v24 = p168 + 24, v25 = p175 + 25, v26 = p182 + 26, v27 = p189 + 27, v28 = p196 + 28, v29 = p203 + 29, v30 = p210 + 30, v31 = p217 + 31, v32 = p224 + 32, v33 = p231 + 33, v34 = p238 + 34, v35 = p245 + 35, v36 = p252 + 36, v37 = p4 + 37, v38 = p11 + 38, v39 = p18 + 39, v40 = p25 + 40, v41 = p32 + 41, v42 = p39 + 42, v43 = p46 + 43, v44 = p53 + 44, v45 = p60 + 45, v46 = p67 + 46, v47 = p74 + 47, v48 = p81 + 48, v49 = p88 + 49, v50 = p95 + 50, v51 = p102 + 51, v52 = p109 + 52, v53 = p116 + 53, v54 = p123 + 54, v55 = p130 + 55, v56 = p137 + 56, v57 = p144 + 57, v58 = p151 + 58, v59 = p158 + 59, v60 = p165 + 60, v61 = p172 + 61, v62 = p179 + 62, v63 = p186 + 63, v64 = p193 + 64, v65 = p200 + 65, v66 = p207 + 66, v67 = p214 + 67, v68 = p221 + 68, v69 = p228 + 69, v70 = p235 + 70, v71 = p242 + 71, v72 = p249 + 72, v73 = p1 + 73, v74 = p8 + 74, v75 = p15 + 75, v76 = p22 + 76, v77 = p29 + 77, v78 = p36 + 78, v79 = p43 + 79, v80 = p50 + 80, v81 = p57 + 81, v82 = p64 + 82, v83 = p71 + 83, v84 = p78 + 84, v85 = p85 + 85, v86 = p92 + 86, v87 = p99 + 87, v88 = p106 + 88, v89 = p113 + 89, v90 = p120 + 90, v91 = p127 + 91, v92 = p134 + 92, v93 = p141 + 93, v94 = p148 + 94, v95 = p155 + 95, v96 = p162 + 96, v97 = p169 + 97, v98 = p176 + 98, v99 = p183 + 99, v100 = p190 + 100, v101 = p197 + 101, v102 = p204 + 102, v103 = p211 + 103, v104 = p218 + 104, v105 = p225 + 105, v106 = p232 + 106, v107 = p239 + 107, v108 = p246 + 108, v109 = p253 + 109, v110 = p5 + 110, v111 = p12 + 111, v112 = p19 + 112, v113 = p26 + 113, v114 = p33 + 114, v115 = p40 + 115, v116 = p47 + 116, v117 = p54 + 117, v118 = p61 + 118, v119 = p68 + 119, v120 = p75 + 120, v121 = p82 + 121, v122 = p89 + 122, v123 = p96 + 123, v124 = p103 + 124, v125 = p110 + 125, v126 = p117 + 126, v127 = p124 + 127, v128 = p131 + 128, v129 = p138 + 129, v130 = p145 + 130, v131 = p152 + 131, v132 = p159 + 132, v133 = p166 + 133, v134 = p173 + 134, v135 = p180 + 135, v136 = p187 + 136, v137 = p194 + 137, v138 = p201 + 138, v139 = p208 + 139, v140 = p215 + 140, v141 = p222 + 141, v142 = p229 + 142, v143 = p236 + 143, v144 = p243 + 144, v145 = p250 + 145, v146 = p2 + 146, v147 = p9 + 147, v148 = p16 + 148, v149 = p23 + 149, v150 = p30 + 150, v151 = p37 + 151, v152 = p44 + 152, v153 = p51 + 153, v154 = p58 + 154, v155 = p65 + 155, v156 = p72 + 156, v157 = p79 + 157, v158 = p86 + 158, v159 = p93 + 159, v160 = p100 + 160, v161 = p107 + 161, v162 = p114 + 162, v163 = p121 + 163, v164 = p128 + 164, v165 = p135 + 165, v166 = p142 + 166, v167 = p149 + 167, v168 = p156 + 168, v169 = p163 + 169, v170 = p170 + 170, v171 = p177 + 171, v172 = p184 + 172, v173 = p191 + 173, v174 = p198 + 174, v175 = p205 + 175, v176 = p212 + 176, v177 = p219 + 177, v178 = p226 + 178, v179 = p233 + 179, v180 = p240 + 180, v181 = p247 + 181, v182 = p254 + 182, v183 = p6 + 183, v184 = p13 + 184, v185 = p20 + 185, v186 = p27 + 186, v187 = p34 + 187, v188 = p41 + 188, v189 = p48 + 189, v190 = p55 + 190, v191 = p62 + 191, v192 = p69 + 192, v193 = p76 + 193, v194 = p83 + 194, v195 = p90 + 195, v196 = p97 + 196, v197 = p104 + 197, v198 = p111 + 198, v199 = p118 + 199, v200 = p125 + 200, v201 = p132 + 201, v202 = p139 + 202, v203 = p146 + 203, v204 = p153 + 204, v205 = p160 + 205, v206 = p167 + 206, v207 = p174 + 207, v208 = p181 + 208, v209 = p188 + 209, v210 = p195 + 210, v211 = p202 + 211, v212 = p209 + 212, v213 = p216 + 213, v214 = p223 + 214, v215 = p230 + 215, v216 = p237 + 216, v217 = p244 + 217, v218 = p251 + 218, v219 = p3 + 219, v220 = p10 + 220, v221 = p17 + 221, v222 = p24 + 222, v223 = p31 + 223, v224 = p38 + 224, v225 = p45 + 225, v226 = p52 + 226, v227 = p59 + 227, v228 = p66 + 228, v229 = p73 + 229, v230 = p80 + 230, v231 = p87 + 231, v232 = p94 + 232, v233 = p101 + 233, v234 = p108 + 234, v235 = p115 + 235, v236 = p122 + 236, v237 = p129 + 237, v238 = p136 + 238, v239 = p143 + 239, v240 = p150 + 240, v241 = p157 + 241, v242 = p164 + 242, v243 = p171 + 243, v244 = p178 + 244, v245 = p185 + 245, v246 = p192 + 246, v247 = p199 + 247, v248 = p206 + 248, v249 = p213 + 249, v250 = p220 + 250, v251 = p227 + 251, v252 = p234 + 252, v253 = p241 + 253, v254 = p248 + 254; return v0 + v254; }
gives: "255"
