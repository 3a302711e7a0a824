# Operators on integers, texts, arrays and mappings.
--- /obj/sword.c
--- /room/hall.c
--- /secure/master.c
// What an expression comes to, or its error; and the same where two objects end once something was set.
#define SHOW(e) error = catch(value = e); if (error) write(error); else printf("%O\n", value);
#define ENDED(set, e) gone = clone_object("/obj/sword"); lost = clone_object("/obj/sword"); set; destruct(gone); destruct(lost); SHOW(e)
mixed error, value, x, y, z;
object hall, sword, gone, lost;
object connect() { hall = load_object("/room/hall"); sword = clone_object("/obj/sword"); return this_object(); }
int logon() { @@ return 1; }
--- play
connect 1
end

=== quotients
# Towards 0, and the rest has the sign of the left.
code: SHOW(-7 / 2)
code: SHOW(-7 % 2)
code: SHOW(7 % -2)
code: SHOW((-9223372036854775807 - 1) % -1)
code: SHOW((-9223372036854775807 - 1) / -1)
code: SHOW(1 / 0)
code: SHOW(1 % 0)
gives: "-3\n"
       "-1\n"
       "1\n"
       "0\n"
       "*Overflow\n"
       "*Division by zero\n"
       "*Division by zero\n"

=== sums_and_products
# What is beyond 64 bits is an error.
code: SHOW(9223372036854775807 + 1)
code: SHOW(9223372036854775807 - 1)
code: SHOW((-9223372036854775807 - 1) * -1)
code: SHOW(-(-9223372036854775807 - 1))
gives: "*Overflow\n"
       "9223372036854775806\n"
       "*Overflow\n"
       "*Overflow\n"

=== shifts
# Bits beyond the end are lost, `>>` keeps the sign, and no shift is negative.
code: SHOW(1 << 63)
code: SHOW(1 << 64)
code: SHOW(-1 >> 70)
code: SHOW(5 >> 1)
code: SHOW(1 << -1)
gives: "-9223372036854775808\n"
       "0\n"
       "-1\n"
       "2\n"
       "*Bad operands\n"

=== bits
# Each bit for itself.
code: SHOW(6 & 3)
code: SHOW(6 | 3)
code: SHOW(6 ^ 3)
code: SHOW(~5)
gives: "2\n"
       "7\n"
       "5\n"
       "-6\n"

=== comparisons
# 1 or 0. An object that ended is 0.
code: SHOW(2 > 1)
code: SHOW(2 != 2)
code: ENDED(x = gone, !x)
gives: "1\n"
       "0\n"
       "1\n"

=== parts_of_texts
# From a place to a place, counted from the beginning or from the end; without them from the first to the last, and nothing where they cross.
code: SHOW("abcd"[1..<2]) SHOW("abcd"[..]) SHOW("abcd"[3..2]) SHOW("abcd"[1..<2] + -3) SHOW("abcd"[<1]) SHOW("abcd"[<0]) SHOW("abcd" < "bc")
gives: "\"bc\"\n\"abcd\"\n\"\"\n\"bc-3\"\n100\n*Illegal index\n1\n"

=== sums_and_parts_of_arrays
# `-` takes away all that equal one on the right, and `&` leaves them; a part ends at the last place.
code: mixed *a, *b, *sum; a = ({ 1, 2, 1 }); b = ({ 1 }); sum = a + b; SHOW(a - b) SHOW(a & b) SHOW(sum) SHOW(sum[<3..9])
code: SHOW(b[1]) SHOW(a[<2]) SHOW(a + 1) SHOW(a)
gives: "({ 2 })\n({ 1, 1 })\n({ 1, 2, 1, 1 })\n({ 2, 1, 1 })\n*Illegal index\n2\n*Bad operands\n({ 1, 2, 1 })\n"

=== identity
# Two arrays are not equal, whatever they hold; one is equal to itself, also inside itself.
code: mixed *a, *b; a = ({ 0 }); b = ({ 0 }); SHOW(a == b) a[0] = a; SHOW(a == a[0])
gives: "0\n1\n"

=== writing_items
# No item is written beyond the last.
code: x = ({ 0, 0 }); SHOW(x[2] = 5) SHOW(x[<0] = 5) SHOW(x[-1] = 5) x[0] = x; SHOW(x == x[0]) SHOW(x[2]) SHOW(sizeof(x)) SHOW(x[1])
gives: "*Illegal index\n*Illegal index\n*Illegal index\n1\n*Illegal index\n2\n0\n"

=== sums_of_mappings
# The right side wins at the place of the left, and new keys come last. `-` takes away the pairs whose key is on the right, and pairs
# whose key ended are in none.
code: gone = clone_object("/obj/sword"); lost = clone_object("/obj/sword"); x = ([ gone: 9, 1: 2 ]); y = ([ gone: 9, 1: 3, 0: 4 ]);
code: destruct(gone); destruct(lost); z = x + y; SHOW(z) SHOW(z - x) SHOW(z[lost]) SHOW(x[gone]) SHOW(x[<1]) SHOW(sizeof(x))
code: SHOW(([ "b": 1, "a": 2 ]) + ([ "b": 3 ]))
gives: "([ 1: 3, 0: 4 ])\n([ 0: 4 ])\n4\n0\n*Bad operands\n1\n([ \"b\": 3, \"a\": 2 ])\n"
