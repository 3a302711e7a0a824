# What expressions do: their values, and the order in which their parts are evaluated. A row is the body of the function
# `t` of the file /t; the master writes its value as `%O` spells it. `n` of a number notes it in `noted`, and gives it.
--- /t.c
inherit "/par";
int g = 7;
mixed *noted = ({ });
mixed n(mixed x) { noted += ({ x }); return x; }
int f(int x, int y) { return 10 * x + y; }
mixed t() {
mixed a = 5, b = 3, c;
@@
}
--- /par.c
string p(mixed x) { return "p" + x; }
string o() { return "o"; }
--- /other.c
mixed *go(mixed x, mixed y, mixed z) { return ({ x, y, z }); }
private int hidden() { return 1; }
--- /simul.c
string s(mixed x) { return "s" + x; }
--- /secure/master.c
string get_simul_efun() { return "/simul"; }
object connect() { return this_object(); }
int logon() { write(sprintf("%O", load_object("/t")->t())); return 1; }
--- play
connect 1
end

=== operands
# The left operand is evaluated first, and parentheses change nothing but what belongs together.
code: return ({ n(1) - n(2), (n(3) + n(4)) * n(5), n(6) + n(7) * n(8) }) + noted;
gives: "({ -1, 35, 62, 1, 2, 3, 4, 5, 6, 7, 8 })"

=== levels
# How tightly operators bind, from the loosest to the tightest, each left to right.
code: return ({ 1 || 0 && 0, 1 | 6 ^ 3 & 2, 1 == 2 != 1, 3 < 4 == 1, 1 << 2 + 1, 7 - 2 - 1, 2 + 3 * 4 % 5, -2 * -3, !0 + 1, ~1 & 3 });
gives: "({ 1, 5, 1, 1, 8, 4, 4, 6, 2, 2 })"

=== casts
# A cast changes no value, and binds as a prefix does: it is a cast of the item.
code: string *v = ({ "x" });
code: return ({ !(int) b, (string) a, (int) v[0] + 1 });
gives: "({ 0, 5, \"x1\" })"

=== literals
# The items of an array and the keys and values of a mapping, from left to right. A later equal key wins.
code: mixed v = ({ n("x"), n("y"), n("x"), }), m = ([ n(1): n(2), n(3): a, 1: n(4), ]);
code: return ({ v, m, noted });
gives: "({ ({ \"x\", \"y\", \"x\" }), ([ 1: 4, 3: 5 ]), ({ \"x\", \"y\", \"x\", 1, 2, 3, 4 }) })"

=== calls
# Arguments are evaluated from left to right, those that are calls too.
code: return ({ f(n(1), n(2)), f(f(n(3), 4), n(5)) }) + noted;
gives: "({ 12, 345, 1, 2, 3, 5 })"

=== calls_of_efuns
# An efun by its name, and by `efun::`; a simul efun, and an argument of it.
code: return ({ strlen("abc"), efun::strlen("ab"), s("x"), s(strlen("x")) });
gives: "({ 3, 2, \"sx\", \"s1\" })"

=== calls_of_parents
# A function of a parent, by its name, by `::` and by the name of the parent.
code: return ({ p(1), ::p(2), "par"::o(), "/par"::p(3) });
gives: "({ \"p1\", \"p2\", \"o\", \"p3\" })"

=== calls_of_objects
# The object comes first, then the arguments; missing ones are 0, and what is not there gives 0.
code: return ({ n("/other")->go(n(1), n(2)), "/other"->go(1, 2, 3, 4), "/other"->hidden(), "/other"->nothing(1), noted });
gives: "({ ({ 1, 2, 0 }), ({ 1, 2, 3 }), 0, 0, ({ \"/other\", 1, 2 }) })"

=== and
# What is behind a 0 is not evaluated. The value is the last one that was.
code: return ({ n(0) && n(1), n(2) && n(3), n(4) && n(0) && n(5), "" && ({ }), noted });
gives: "({ 0, 3, 0, ({ }), ({ 0, 2, 3, 4, 0 }) })"

=== or
# What is behind another value is not evaluated.
code: return ({ n(1) || n(2), n(0) || n(3), n(0) || n(0), "" || 1, noted });
gives: "({ 1, 3, 0, \"\", ({ 1, 0, 3, 0, 0 }) })"

=== choice
# One of the two is evaluated. What stands between the marks may be a sequence.
code: return ({ n(1) ? n(2) : n(3), n(0) ? n(4) : n(5), 0 ? 1 : 0 ? 2 : 3, 1 ? 4, 5 : 6, noted });
gives: "({ 2, 5, 3, 5, ({ 1, 2, 0, 5 }) })"

=== catch
# A catch gives 0, the text of the error or what was thrown.
code: return ({ catch(n(1)), catch(n(2) / 0), catch(throw(n(3))), catch(a = 9, throw("x")), a, noted });
gives: "({ 0, \"*Division by zero\\n\", 3, \"x\", 9, ({ 1, 2, 3 }) })"

=== catch_in_an_expression
# What was evaluated before a catch is there behind it.
code: return 1000 * a + f(n(4), catch(throw(2)) + catch(catch(throw(n(1)))));
gives: "5042"

=== scan
# The first two parts are evaluated and scanned; then each assigned place in turn.
code: mixed *v = ({ 0, 0 });
code: int i = sscanf(n("7 of 9"), n("%d of %d"), v[n(1)], v[n(0)]);
code: return ({ i, v, sscanf("x", "%d", a), a, sscanf("8 y", "%d %d", b, g), b, g, noted });
gives: "({ 2, ({ 9, 7 }), 0, 5, 1, 8, 7, ({ \"7 of 9\", \"%d of %d\", 1, 0 }) })"

=== sequence
# Each part is evaluated, and the last counts.
code: return (n(1), n(2), noted);
gives: "({ 1, 2 })"

=== index
# From the front and from the back; of texts the code point; of mappings 0 where the key is missing.
code: mixed v = ({ 1, 2, 3 }), m = ([ "x": 4 ]);
code: return ({ v[n(0)], v[<n(1)], "abc"[1], "abc"[<1], m["x"], m["y"], ({ v })[0][1] });
gives: "({ 1, 3, 98, 99, 4, 0, 2 })"

=== ranges
# Each kind of end, of arrays and of texts.
code: string x = "abcdef";
code: return ({ x[1 .. 3], x[1 .. <2], x[1 ..], x[<4 .. 3], x[<3 .. <2], x[<2 ..], x[.. 1], x[.. <5], x[..], ({ 1, 2, 3 })[1 ..] });
gives: "({ \"bcd\", \"bcde\", \"bcdef\", \"cd\", \"de\", \"ef\", \"ab\", \"ab\", \"abcdef\", ({ 2, 3 }) })"

=== order_of_a_range
# The text comes first, then the ends.
code: return n("abcdef")[n(1) .. n(2)] + noted[0] + noted[1] + noted[2];
gives: "\"bcabcdef12\""

=== assignment
# The value of an assignment is what is assigned; of two the right one comes first.
code: a = g = n(1);
code: return ({ a, g, c = b = n(2), b, c });
gives: "({ 1, 1, 2, 2, 2 })"

=== assignment_to_an_item
# The right side comes first, then the container and the index.
code: mixed v = ({ 1, 2 });
code: (n(v))[n(0)] = n(9);
code: v[<1] = 8;
code: return ({ v, noted[0], noted[2] });
gives: "({ ({ 9, 8 }), 9, 0 })"

=== assignment_to_a_key
# A key that is missing is put behind the others.
code: mapping m = ([ 1: 2 ]);
code: m["x"] = 3; m[1] = 4; m[5] += 6;
code: return m;
gives: "([ 1: 4, \"x\": 3, 5: 6 ])"

=== compound_assignments
# Each of them; the value is the new one.
code: mixed v = ({ 7, 7, 7, 7, 7, 7, 7, 7, 7, 7 });
code: return ({ v[0] += 2, v[1] -= 2, v[2] *= 2, v[3] /= 2, v[4] %= 2, v[5] &= 2, v[6] |= 8, v[7] ^= 2, v[8] <<= 2, v[9] >>= 2, v });
gives: "({ 9, 5, 14, 3, 1, 2, 15, 5, 28, 1, ({ 9, 5, 14, 3, 1, 2, 15, 5, 28, 1 }) })"

=== order_of_a_compound_assignment
# The right side comes first, then container and index, each once.
code: mixed v = ({ 1, 2 });
code: v[n(1)] += n(5);
code: v[<n(2)] -= n(6);
code: a += 1; g -= b;
code: return ({ v, a, g, noted });
gives: "({ ({ -5, 7 }), 6, 4, ({ 5, 1, 6, 2 }) })"

=== assignments_that_look_first
# `&&=` and `||=` read the place first, and evaluate the right side only where it is needed.
code: mixed v = ({ 0, 1 });
code: v[n(0)] ||= n(2);
code: v[1] ||= n(3);
code: a &&= n(4);
code: c &&= n(5);
code: return ({ v, a, c, g ||= n(6), b &&= n(0), noted });
gives: "({ ({ 2, 1 }), 4, 0, 7, 0, ({ 0, 2, 4, 0 }) })"

=== steps
# A step before a place gives the new value, one behind it the old one; the index is evaluated once.
code: mixed v = ({ 1, 5 });
code: return ({ a++, a, ++a, --g, g--, g, v[n(0)]++, ++v[<1], --v[0], v[1]--, v, noted });
gives: "({ 5, 6, 7, 6, 6, 5, 1, 6, 1, 6, ({ 1, 5 }), ({ 0 }) })"

=== joined_texts
# Texts beside one another are one, before anything is done with them.
code: return "a" "b"[0] + strlen("cd" "e");
gives: "100"
