# What statements do. A row is the body of the function `t` of the file /t; the master writes its value as `%O` spells it.
# `say` of a number puts it behind those in `said`.
--- /t.c
int g = 7, h = 8;
mixed *said = ({ });
int say(int n) { said += ({ n }); return n; }
mixed t() {
@@
}
--- /secure/master.c
object connect() { return this_object(); }
int logon() { write(sprintf("%O", load_object("/t")->t())); return 1; }
--- play
connect 1
end

=== nothing
# A function without a return gives 0.
code:
gives: "0"

=== return
# What stands behind a return is not reached. A return of nothing gives 0.
code: return; ; return 1;
gives: "0"

=== return_of_a_sequence
# A return may have a sequence, of which the last counts.
code: return say(1), said;
gives: "({ 1 })"

=== if_without_else
# Only 0 is false.
code: if (0) say(1);
code: if (1) say(2);
code: if (-1) say(3);
code: if ("") say(4);
code: if (({ })) say(5);
code: return said;
gives: "({ 2, 3, 4, 5 })"

=== if_with_else
# One of the two branches.
code: if (0) say(1); else say(2);
code: if (1) say(3); else say(4);
code: if (0) say(5); else if (0) say(6); else say(7);
code: return said;
gives: "({ 2, 3, 7 })"

=== nearest_if
# An `else` goes with the nearest `if`.
code: if (1) if (0) say(1); else say(2);
code: if (0) if (0) say(3); else say(4);
code: if (0) if (0) ; else say(5); else say(6);
code: if (0) { if (0) ; } else say(7);
code: if (1) while (0) if (1) ; else say(8); say(9);
code: return said;
gives: "({ 2, 6, 7, 9 })"

=== while
# The test comes before each turn.
code: int a = 3;
code: while (a) { say(a); a--; }
code: while (a) say(9);
code: return said;
gives: "({ 3, 2, 1 })"

=== break_of_a_while
# A break leaves the loop at once.
code: int a = 3;
code: while (a) { say(a); break; say(9); }
code: return said;
gives: "({ 3 })"

=== continue_of_a_while
# A continue goes to the test.
code: int a = 3;
code: while (a--) { if (a == 1) continue; say(a); }
code: return said;
gives: "({ 2, 0 })"

=== do
# The test comes behind each turn, also behind a continue.
code: int a = 3;
code: do { say(a); if (a == 2) continue; say(10 + a); } while (--a);
code: do say(20); while (0);
code: return said;
gives: "({ 3, 13, 2, 1, 11, 20 })"

=== break_of_a_do
# A break passes the test over.
code: do { say(1); break; } while (say(2));
code: return said;
gives: "({ 1 })"

=== for
# A continue of a `for` takes the step, a break does not.
code: for (int i = 0; i < 9; i += say(1)) { if (i == 1) continue; if (i == 3) break; say(10 + i); }
code: return said;
gives: "({ 10, 1, 1, 12, 1 })"

=== for_without_parts
# Each part of a `for` may be missing; what has no test goes on.
code: int i;
code: for (;;) if (i++ == 3) break;
code: for (say(i); ; say(i++)) if (i == 6) break;
code: for (; i < 8;) i++;
code: return said + ({ i });
gives: "({ 4, 4, 5, 8 })"

=== for_with_sequences
# A sequence may stand in each part; of a test the last counts.
code: int i, j;
code: for (i = 0, j = 9; j, i < 3; i++, j--) say(j);
code: return said;
gives: "({ 9, 8, 7 })"

=== foreach
# Over the items of an array as they stood at its begin, with a continue and a break.
code: int *v = ({ 1, 2, 3, 4, 5 });
code: foreach (int x : v) { v = ({ }); if (x == 2) continue; if (x == 4) break; say(x); }
code: return said;
gives: "({ 1, 3 })"

=== foreach_of_items_that_change
# What is written to an array in the loop is not seen by it.
code: int *v = ({ 1, 2, 3 });
code: foreach (int x in v) { v[2] = 9; say(x); }
code: return said + v;
gives: "({ 1, 2, 3, 1, 2, 9 })"

=== foreach_of_a_mapping
# One variable takes the keys, two take the keys and their values.
code: mapping m = ([ 1: 2, 3: 4 ]);
code: foreach (int k : m) say(k);
code: foreach (int k, int x : m) say(10 * k + x);
code: return said;
gives: "({ 1, 3, 12, 34 })"

=== foreach_of_an_array_with_two
# Two variables take the item and 0.
code: foreach (int x, int y : ({ 1, 2 })) { say(x); say(y); }
code: return said;
gives: "({ 1, 0, 2, 0 })"

=== foreach_of_variables_that_are_there
# Without a type it takes a variable that is there: a global, a local, and one of each with a new one.
code: int a;
code: foreach (g : ({ 1, 2 })) say(g);
code: foreach (a : ({ 3 })) ;
code: foreach (int x, h : ([ 4: 5 ])) say(x);
code: return said + ({ g, a, h });
gives: "({ 1, 2, 4, 2, 3, 5 })"

=== foreach_of_nothing
# No turn for an empty array or mapping, and its variable stays.
code: foreach (g : ({ })) say(1);
code: foreach (g, h : ([ ])) say(2);
code: return said + ({ g, h });
gives: "({ 7, 8 })"

=== foreach_of_another_value
# Over what is no array and no mapping there is no loop.
code: return ({ catch(foreach_of(1)), catch(foreach_of("a")), catch(foreach_of(0)) });
code: }
code: void foreach_of(mixed x) { foreach (int i : x) say(i);
gives: "({ \"*Bad operands\\n\", \"*Bad operands\\n\", \"*Bad operands\\n\" })"

=== inner_loop
# The break leaves the inner loop, the continue is one of the outer loop.
code: for (int i = 0; i < 3; i++) {
code:   do { say(i); break; } while (say(9));
code:   if (i == 1) continue;
code:   say(10 + i);
code: }
code: return said;
gives: "({ 0, 10, 1, 2, 12 })"

=== loops_of_each_kind
# A `foreach` in a `for` in a `while`, each left in its middle: what the loops keep is dropped where they end.
code: int n = 2;
code: while (n--) {
code:   for (int i = 0; ; i++) {
code:     foreach (int x : ({ 5, 6, 7 })) {
code:       if (x == 6) break;
code:       foreach (int k, int y : ([ 8: 9 ])) { say(i); if (i) return said + ({ x, k, y }); continue; }
code:     }
code:   }
code: }
gives: "({ 0, 1, 5, 8, 9 })"

=== local
# A local without an initialiser is 0.
code: int a = g, b, *c = ({ a });
code: return ({ a, b, c });
gives: "({ 7, 0, ({ 7 }) })"

=== local_in_its_own_initialiser
# A local is seen behind its own value.
code: int g = g + 1;
code: int h = h + g;
code: return ({ g, h });
gives: "({ 8, 16 })"

=== room_of_a_block
# Where a block had a local another one is 0 at first.
code: { int a = 1; int b = 2; }
code: int c, d;
code: { int e; c = e; }
code: return ({ c, d });
gives: "({ 0, 0 })"

=== local_of_a_loop
# A declaration that runs again makes a new variable, which is 0.
code: for (int i = 0; i < 3; i++) { int x; say(x++); say(x); }
code: return said;
gives: "({ 0, 1, 0, 1, 0, 1 })"

=== local_of_a_branch
# A local that is declared in a branch is seen behind it, and 0 where the branch was not taken.
code: if (g) int b = 1;
code: if (!g) int c = 1;
code: return ({ b, c });
gives: "({ 1, 0 })"

=== local_of_a_branch_in_a_loop
# It is 0 again in the next turn.
code: for (int i = 0; i < 2; i++) { if (!i) int b = 5; say(b); }
code: return said;
gives: "({ 5, 0 })"

=== local_that_is_a_body_of_a_while
# The test of a `while` does not see what its body declares.
code: int n = 2;
code: { while (n--) int n = 5; h = n; }
code: return ({ n, h });
gives: "({ -1, 5 })"

=== local_that_is_a_body_of_a_do
# That of a `do` does.
code: int n = 3;
code: { do int n = 0; while (say(n)); }
code: return said + ({ n });
gives: "({ 0, 3 })"

=== local_that_is_a_body_of_a_for
# The step of a `for` does not see it.
code: for (int i = 0; i < 2; i++, g++) int g = 1;
code: for (int g = 1; g; g--) { int g = 1; say(g); g = 5; }
code: return said + ({ g });
gives: "({ 1, 9 })"

=== foreach_over_a_name_that_it_hides
# What a `foreach` goes over does not see its variables.
code: mixed v = ({ 1, 2 });
code: foreach (int v : v) say(v);
code: return said + v;
gives: "({ 1, 2, 1, 2 })"

=== parameters
# Missing arguments are 0, and parameters may be assigned.
code: return ({ f(1, 2), f(1), f() });
code: }
code: varargs mixed f(mixed a, int b) { mixed c = ({ a, b }); a = 5; b += a; return c + ({ a, b });
gives: "({ ({ 1, 2, 5, 7 }), ({ 1, 0, 5, 5 }), ({ 0, 0, 5, 5 }) })"

=== globals
# Initialisers run in the order of the variables, and see what stands before them; what stands behind is 0 then.
code: return ({ a, b, c, d });
code: }
code: int a = d + 1, b, c = a + g, d = c + 1; mixed u() {
gives: "({ 1, 0, 8, 9 })"
