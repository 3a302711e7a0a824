# Forms of `sprintf`: widths, fills and precisions of each kind of part, values as `%O` tells them, and what is refused.
--- /obj/sword.c
--- /room/hall.c
--- /secure/master.c
// The text that is made, or the error; the same where two objects end once something was set; and how long the text is.
#define SHOW(e) error = catch(value = e); write(error ? error : value + "\n");
#define ENDED(set, e) gone = clone_object("/obj/sword"); lost = clone_object("/obj/sword"); set; destruct(gone); destruct(lost); SHOW(e)
#define SIZE(e) error = catch(value = e); write(error ? error : sizeof(value) + "\n");
mixed error, value, x, y, z;
object sword, hall, gone, lost;
// So many times one letter.
string many(int n, string s) { while (strlen(s) <= n / 2) s += s; return s + s[0..n - strlen(s) - 1]; }
object connect() { sword = load_object("/obj/sword"); hall = load_object("/room/hall"); return this_object(); }
int logon() { @@ return 1; }
--- play
connect 1
end

=== texts
# A text is filled to its width, on the left or with `-` on the right, never with zeros; a precision cuts it. Both count code points.
code: SHOW(sprintf("[%s]", "äbc"))
code: SHOW(sprintf("[%5s]", "äbc"))
code: SHOW(sprintf("[%-5s]", "äbc"))
code: SHOW(sprintf("[%05s]", "äbc"))
code: SHOW(sprintf("[%-05s]", "äbc"))
code: SHOW(sprintf("[%.2s]", "äbc"))
code: SHOW(sprintf("[%.0s]", "äbc"))
code: SHOW(sprintf("[%.002s]", "äbc"))
code: SHOW(sprintf("[%.9999s]", "äbc"))
code: SHOW(sprintf("[%-05.2s]", "äbc"))
code: SHOW(sprintf("[%2s]", "äbc"))
code: SHOW(sprintf("[%*s]", 0, "äbc"))
code: SHOW(sprintf("[%3s]", ""))
code: SHOW(sprintf("日%4s|%-4s|%.1s本", "äö", "語€", "日本"))
gives: "[äbc]\n"
       "[  äbc]\n"
       "[äbc  ]\n"
       "[  äbc]\n"
       "[äbc  ]\n"
       "[äb]\n"
       "[]\n"
       "[äb]\n"
       "[äbc]\n"
       "[äb   ]\n"
       "[äbc]\n"
       "[äbc]\n"
       "[   ]\n"
       "日  äö|語€  |日本\n"

=== texts_of_asked_width
# A `*` takes the width, or the precision, from the arguments.
code: SHOW(sprintf("[%*s]", 5, "äbc"))
code: SHOW(sprintf("[%-*s]", 5, "äbc"))
code: SHOW(sprintf("[%0*s]", 5, "äbc"))
code: SHOW(sprintf("[%.*s]", 1, "äbc"))
code: SHOW(sprintf("[%.*s]", 0, "äbc"))
code: SHOW(sprintf("[%*.*s]", 4, 2, "äbc"))
gives: "[  äbc]\n"
       "[äbc  ]\n"
       "[  äbc]\n"
       "[ä]\n"
       "[]\n"
       "[  äb]\n"

=== decimals
# Zeros stand behind the sign, and not where `-` fills on the right; a precision counts for nothing.
code: SHOW(sprintf("[%d]", -42))
code: SHOW(sprintf("[%6d]", -42))
code: SHOW(sprintf("[%-6d]", -42))
code: SHOW(sprintf("[%06d]", -42))
code: SHOW(sprintf("[%-06d]", -42))
code: SHOW(sprintf("[%.1d]", -42))
code: SHOW(sprintf("[%.9d]", -42))
code: SHOW(sprintf("[%*d]", 6, -42))
code: SHOW(sprintf("[%0*d]", 6, -42))
code: SHOW(sprintf("[%-0*d]", 6, -42))
code: SHOW(sprintf("[%.*d]", 1, -42))
code: SHOW(sprintf("[%*.*d]", 6, 1, -42))
code: SHOW(sprintf("[%06.1d]", -42))
gives: "[-42]\n"
       "[   -42]\n"
       "[-42   ]\n"
       "[-00042]\n"
       "[-42   ]\n"
       "[-42]\n"
       "[-42]\n"
       "[   -42]\n"
       "[-00042]\n"
       "[-42   ]\n"
       "[-42]\n"
       "[   -42]\n"
       "[-00042]\n"

=== zeros_of_widths
# Zeros in front of a width say no more than one.
code: SHOW(sprintf("[%007d]", -42))
code: SHOW(sprintf("[%-00007d]", -42))
code: SHOW(sprintf("[%00000000000000000000000000000004d]", 7))
code: SHOW(sprintf("[%0d]", -42))
code: SHOW(sprintf("[%02d]", -42))
code: SHOW(sprintf("[%03d]", -42))
code: SHOW(sprintf("[%04d]", -42))
code: SHOW(sprintf("[%05d]", 42))
code: SHOW(sprintf("[%d|%03d|%.0d]", 0, 0, 0))
gives: "[-000042]\n"
       "[-42    ]\n"
       "[0007]\n"
       "[-42]\n"
       "[-42]\n"
       "[-42]\n"
       "[-042]\n"
       "[00042]\n"
       "[0|000|0]\n"

=== other_decimals
# `%i` is `%d`, up to the ends of 64 bits.
code: SHOW(sprintf("[%i]", -42))
code: SHOW(sprintf("[%6i|%-6i|%06i|%-06i]", -42, -42, -42, -42))
code: SHOW(sprintf("[%.1i|%*.*i]", -42, 6, 1, -42))
code: SHOW(sprintf("[%d]", -9223372036854775807 - 1))
code: SHOW(sprintf("[%22d]", -9223372036854775807 - 1))
code: SHOW(sprintf("[%022d]", -9223372036854775807 - 1))
code: SHOW(sprintf("[%d]", 9223372036854775807))
code: SHOW(sprintf("[%020d]", 9223372036854775807))
gives: "[-42]\n"
       "[   -42|-42   |-00042|-42   ]\n"
       "[-42|   -42]\n"
       "[-9223372036854775808]\n"
       "[  -9223372036854775808]\n"
       "[-009223372036854775808]\n"
       "[9223372036854775807]\n"
       "[09223372036854775807]\n"

=== octal
# An integer by eights.
code: SHOW(sprintf("[%o]", 64))
code: SHOW(sprintf("[%5o]", 64))
code: SHOW(sprintf("[%-5o]", 64))
code: SHOW(sprintf("[%05o]", 64))
code: SHOW(sprintf("[%-05o]", 64))
code: SHOW(sprintf("[%.1o]", 64))
code: SHOW(sprintf("[%*o]", 5, 64))
code: SHOW(sprintf("[%.*o]", 1, 64))
code: SHOW(sprintf("[%*.*o]", 5, 1, 64))
gives: "[100]\n"
       "[  100]\n"
       "[100  ]\n"
       "[00100]\n"
       "[100  ]\n"
       "[100]\n"
       "[  100]\n"
       "[100]\n"
       "[  100]\n"

=== hexadecimal
# An integer by sixteens, in small letters.
code: SHOW(sprintf("[%x]", 48879))
code: SHOW(sprintf("[%6x]", 48879))
code: SHOW(sprintf("[%-6x]", 48879))
code: SHOW(sprintf("[%06x]", 48879))
code: SHOW(sprintf("[%-06x]", 48879))
code: SHOW(sprintf("[%.1x]", 48879))
code: SHOW(sprintf("[%*x]", 6, 48879))
code: SHOW(sprintf("[%.*x]", 1, 48879))
code: SHOW(sprintf("[%*.*x]", 6, 1, 48879))
gives: "[beef]\n"
       "[  beef]\n"
       "[beef  ]\n"
       "[00beef]\n"
       "[beef  ]\n"
       "[beef]\n"
       "[  beef]\n"
       "[beef]\n"
       "[  beef]\n"

=== hexadecimal_in_capitals
# The same in capitals.
code: SHOW(sprintf("[%X]", 48879))
code: SHOW(sprintf("[%6X]", 48879))
code: SHOW(sprintf("[%-6X]", 48879))
code: SHOW(sprintf("[%06X]", 48879))
code: SHOW(sprintf("[%-06X]", 48879))
code: SHOW(sprintf("[%.1X]", 48879))
code: SHOW(sprintf("[%*X]", 6, 48879))
code: SHOW(sprintf("[%.*X]", 1, 48879))
code: SHOW(sprintf("[%*.*X]", 6, 1, 48879))
gives: "[BEEF]\n"
       "[  BEEF]\n"
       "[BEEF  ]\n"
       "[00BEEF]\n"
       "[BEEF  ]\n"
       "[BEEF]\n"
       "[  BEEF]\n"
       "[BEEF]\n"
       "[  BEEF]\n"

=== bases_at_their_ends
# 0, and the greatest integer.
code: SHOW(sprintf("[%o|%x|%X|%03x]", 0, 0, 0, 0))
code: SHOW(sprintf("[%o]", 9223372036854775807))
code: SHOW(sprintf("[%x|%X]", 9223372036854775807, 9223372036854775807))
gives: "[0|0|0|000]\n"
       "[777777777777777777777]\n"
       "[7fffffffffffffff|7FFFFFFFFFFFFFFF]\n"

=== code_points
# A code point is filled as a text is, and has no precision.
code: SHOW(sprintf("[%c]", 228))
code: SHOW(sprintf("[%3c]", 228))
code: SHOW(sprintf("[%-3c]", 228))
code: SHOW(sprintf("[%03c]", 228))
code: SHOW(sprintf("[%-03c]", 228))
code: SHOW(sprintf("[%.0c]", 228))
code: SHOW(sprintf("[%*c]", 3, 228))
code: SHOW(sprintf("[%.*c]", 0, 228))
code: SHOW(sprintf("[%*.*c]", 3, 0, 228))
code: SHOW(sprintf("[%03c]", 45))
code: SHOW(sprintf("[%c%c%c]", 0, 10, 37))
code: SHOW(sprintf("[%c%c%c]", 55295, 57344, 1114111))
gives: "[ä]\n"
       "[  ä]\n"
       "[ä  ]\n"
       "[  ä]\n"
       "[ä  ]\n"
       "[ä]\n"
       "[  ä]\n"
       "[ä]\n"
       "[  ä]\n"
       "[  -]\n"
       "[\x00\n%]\n"
       "[\xed\x9f\xbf\xee\x80\x80\xf4\x8f\xbf\xbf]\n"

=== percent_signs
# So is a percent sign.
code: SHOW(sprintf("[%%]"))
code: SHOW(sprintf("[%5%]"))
code: SHOW(sprintf("[%-5%]"))
code: SHOW(sprintf("[%05%]"))
code: SHOW(sprintf("[%-05%]"))
code: SHOW(sprintf("[%.0%]"))
code: SHOW(sprintf("[%*%]", 3))
code: SHOW(sprintf("[%.*%]", 0))
code: SHOW(sprintf("[%*.*%]", 3, 0))
code: SHOW(sprintf("%%%d%%%*%%d", 1, 2, 3))
gives: "[%]\n"
       "[    %]\n"
       "[%    ]\n"
       "[    %]\n"
       "[%    ]\n"
       "[%]\n"
       "[  %]\n"
       "[%]\n"
       "[  %]\n"
       "%1% %3\n"

=== any_value
# `%O` tells any value: integers in decimal, texts in quotes, objects by their names; filled as texts are.
code: SHOW(sprintf("[%O]", -7))
code: SHOW(sprintf("[%4O]", -7))
code: SHOW(sprintf("[%-4O]", -7))
code: SHOW(sprintf("[%04O]", -7))
code: SHOW(sprintf("[%-04O]", -7))
code: SHOW(sprintf("[%.0O]", -7))
code: SHOW(sprintf("[%*O]", 4, -7))
code: SHOW(sprintf("[%.*O]", 0, -7))
code: SHOW(sprintf("[%*.*O]", 4, 0, -7))
code: SHOW(sprintf("%O %O", -9223372036854775807 - 1, 9223372036854775807))
code: SHOW(sprintf("%O", ""))
code: SHOW(sprintf("%O", "a\"b\\c\nä\t日'%"))
code: SHOW(sprintf("[%6O|%-6O|%1O]", "ä", "\n", "é"))
code: SHOW(sprintf("", 1))
code: SHOW(sprintf("%O %O", sword, hall))
code: SHOW(sprintf("[%12O|%-12O]", hall, hall))
gives: "[-7]\n"
       "[  -7]\n"
       "[-7  ]\n"
       "[  -7]\n"
       "[-7  ]\n"
       "[-7]\n"
       "[  -7]\n"
       "[-7]\n"
       "[  -7]\n"
       "-9223372036854775808 9223372036854775807\n"
       "\"\"\n"
       "\"a\\\"b\\\\c\\nä\t日'%\"\n"
       "[   \"ä\"|\"\\n\"  |\"é\"]\n"
       "\n"
       "/obj/sword /room/hall\n"
       "[  /room/hall|/room/hall  ]\n"

=== objects_that_ended
# They are 0, as a value, a width and a precision.
code: ENDED(x = gone; y = lost, sprintf("%O %O", x, y))
code: ENDED(x = gone; y = lost, sprintf("%d|%i|%03d", x, y, x))
code: ENDED(x = gone; y = lost, sprintf("%o|%x|%X|%c", x, x, y, x))
code: ENDED(x = gone, sprintf("[%*d]", x, 5))
code: ENDED(y = lost, sprintf("[%.*s]", y, "ä"))
code: ENDED(x = gone; y = lost, sprintf("[%4O|%-4O|%04d]", x, y, x))
gives: "0 0\n"
       "0|0|000\n"
       "0|0|0|\x00\n"
       "[5]\n"
       "[]\n"
       "[   0|0   |0000]\n"

=== forms_that_end_early
# A part without its letter.
code: SHOW(sprintf("%q", 1))
code: SHOW(sprintf("ä%ä", 1))
code: SHOW(sprintf("日本%"))
code: SHOW(sprintf("%"))
code: SHOW(sprintf("%5", 1))
code: SHOW(sprintf("%-", 1))
code: SHOW(sprintf("%0", 1))
code: SHOW(sprintf("%*", 1))
code: SHOW(sprintf("%.", 1))
code: SHOW(sprintf("%.5", "x"))
gives: "*Bad format\n"
       "*Bad format\n"
       "*Bad format\n"
       "*Bad format\n"
       "*Bad format\n"
       "*Bad format\n"
       "*Bad format\n"
       "*Bad format\n"
       "*Bad format\n"
       "*Bad format\n"

=== forms_that_are_none
# A precision without digits, a width or precision above 9999, signs in the wrong place, and unknown letters.
code: SHOW(sprintf("%.s", "x"))
code: SHOW(sprintf("%5.s", "x"))
code: SHOW(sprintf("%.-1s", "x"))
code: SHOW(sprintf("%10000d", 1))
code: SHOW(sprintf("%010000d", 1))
code: SHOW(sprintf("%.10000s", "x"))
code: SHOW(sprintf("é%99999999999999999999999999d", 1))
code: SHOW(sprintf("%.99999999999999999999999999s", "x"))
code: SHOW(sprintf("%--5d", 1))
code: SHOW(sprintf("%0-5d", 1))
code: SHOW(sprintf("%+d", 1))
code: SHOW(sprintf("% d", 1))
code: SHOW(sprintf("%5*d", 1, 1))
code: SHOW(sprintf("%*5d", 1, 1))
code: SHOW(sprintf("%.1.1s", "x"))
code: SHOW(sprintf("ö%-05.2s%%é%q", "x"))
code: SHOW(sprintf("%s%S", "日本語日本語", "x"))
gives: "*Bad format\n"
       "*Bad format\n"
       "*Bad format\n"
       "*Bad format\n"
       "*Bad format\n"
       "*Bad format\n"
       "*Bad format\n"
       "*Bad format\n"
       "*Bad format\n"
       "*Bad format\n"
       "*Bad format\n"
       "*Bad format\n"
       "*Bad format\n"
       "*Bad format\n"
       "*Bad format\n"
       "*Bad format\n"
       "*Bad format\n"

=== forms_before_arguments
# A part is looked at whole before its arguments are.
code: SHOW(sprintf("%*q"))
code: SHOW(sprintf("%*.*q", "x"))
code: SHOW(sprintf("%*.s"))
gives: "*Bad format\n"
       "*Bad format\n"
       "*Bad format\n"

=== too_few_arguments
# Each part wants its value, and each `*` one before it.
code: SHOW(sprintf("%d"))
code: SHOW(sprintf("%O"))
code: SHOW(sprintf("%s%s", "x"))
code: SHOW(sprintf("%*%"))
code: SHOW(sprintf("%*d"))
code: SHOW(sprintf("%*d", 5))
code: SHOW(sprintf("%.*s"))
code: SHOW(sprintf("%.*s", 5))
code: SHOW(sprintf("%*.*s", 5))
code: SHOW(sprintf("%*.*s", 5, 5))
gives: "*Too few arguments\n"
       "*Too few arguments\n"
       "*Too few arguments\n"
       "*Too few arguments\n"
       "*Too few arguments\n"
       "*Too few arguments\n"
       "*Too few arguments\n"
       "*Too few arguments\n"
       "*Too few arguments\n"
       "*Too few arguments\n"

=== values_of_other_kinds
# The form is argument 1. Integers from 0 up for bases, and code points alone.
code: SHOW(sprintf("%d", "1"))
code: SHOW(sprintf("%i", "1"))
code: SHOW(sprintf("%o", "1"))
code: SHOW(sprintf("%x", "1"))
code: SHOW(sprintf("%X", "1"))
code: SHOW(sprintf("%c", "1"))
code: SHOW(sprintf("%s", 1))
code: SHOW(sprintf("%o", -1))
code: SHOW(sprintf("%x", -1))
code: SHOW(sprintf("%X", -9223372036854775807 - 1))
code: SHOW(sprintf("%c", 55296))
code: SHOW(sprintf("%c", 57343))
code: SHOW(sprintf("%c", 1114112))
code: SHOW(sprintf("%c", -1))
code: SHOW(sprintf("%c", 4294967361))
gives: "*Bad argument 2 to sprintf\n"
       "*Bad argument 2 to sprintf\n"
       "*Bad argument 2 to sprintf\n"
       "*Bad argument 2 to sprintf\n"
       "*Bad argument 2 to sprintf\n"
       "*Bad argument 2 to sprintf\n"
       "*Bad argument 2 to sprintf\n"
       "*Bad argument 2 to sprintf\n"
       "*Bad argument 2 to sprintf\n"
       "*Bad argument 2 to sprintf\n"
       "*Bad argument 2 to sprintf\n"
       "*Bad argument 2 to sprintf\n"
       "*Bad argument 2 to sprintf\n"
       "*Bad argument 2 to sprintf\n"
       "*Bad argument 2 to sprintf\n"

=== widths_of_other_kinds
# A width or precision is an integer from 0 to 9999.
code: SHOW(sprintf("%*d", -1, 1))
code: SHOW(sprintf("%*d", 10000, 1))
code: SHOW(sprintf("%*d", "5", 1))
code: SHOW(sprintf("%.*s", -1, "x"))
code: SHOW(sprintf("%.*s", 10000, "x"))
code: SHOW(sprintf("%*.*s", 1, "5", "x"))
code: SHOW(sprintf("%*.*s", 1, 1, 1))
gives: "*Bad argument 2 to sprintf\n"
       "*Bad argument 2 to sprintf\n"
       "*Bad argument 2 to sprintf\n"
       "*Bad argument 2 to sprintf\n"
       "*Bad argument 2 to sprintf\n"
       "*Bad argument 3 to sprintf\n"
       "*Bad argument 4 to sprintf\n"

=== the_first_fault
# Parts are taken from left to right, and objects are told by `%O` alone.
code: SHOW(sprintf("ä%%%s%s%d", "a", "b", "c"))
code: ENDED(x = gone, sprintf("%s", x))
code: SHOW(sprintf("%s", sword))
code: SHOW(sprintf("%d%d", 1, sword))
code: SHOW(sprintf("%c", hall))
code: SHOW(sprintf("%*d", sword, 1))
code: SHOW(sprintf("%d%q", "x"))
code: SHOW(sprintf("%q%d", "x"))
code: SHOW(sprintf("%d%q"))
code: SHOW(sprintf("%s%d%s", "x", "y"))
code: SHOW(sprintf("%*d", -1))
code: SHOW(sprintf("%*.*d", "x"))
gives: "*Bad argument 4 to sprintf\n"
       "*Bad argument 2 to sprintf\n"
       "*Bad argument 2 to sprintf\n"
       "*Bad argument 3 to sprintf\n"
       "*Bad argument 2 to sprintf\n"
       "*Bad argument 2 to sprintf\n"
       "*Bad argument 2 to sprintf\n"
       "*Bad format\n"
       "*Too few arguments\n"
       "*Bad argument 3 to sprintf\n"
       "*Bad argument 2 to sprintf\n"
       "*Bad argument 2 to sprintf\n"

=== the_twelfth_argument
# The number of a bad argument has as many digits as it needs.
code: SHOW(sprintf("%d%d%d%d%d%d%d%d%d%d%d", 1, 2, 3, 4, 5, 6, 7, 8, 9, 10, "x"))
gives: "*Bad argument 12 to sprintf\n"

=== several_parts
# Parts of each kind in one form; arguments that no part takes are ignored.
code: SHOW(sprintf("%-5s|%05d|%x|%O", "ab", -42, 255, ({ 1, "x" })))
code: SHOW(sprintf("%-5s|%05d|%x|%18O|%%", "ab", -42, 255, ({ 1, "x" }), 1))
code: SHOW(sprintf("a", 1, 2)) SHOW(sprintf("%%")) SHOW(sprintf("%c%o%X", 228, 8, 255)) SHOW(sprintf("%*d|%.2s", 4, 7, "abc"))
gives: "ab   |-0042|ff|({ 1, \"x\" })\n"
       "ab   |-0042|ff|      ({ 1, \"x\" })|%\n"
       "a\n%\nä10FF\n   7|ab\n"

=== arrays_and_mappings
# Their items in order, also one that stands twice; empty ones as such.
code: x = ({ }); y = ([ ]); SHOW(sprintf("%O", x)) SHOW(sprintf("%O", y)) SHOW(sprintf("%O%O", x, y)) SHOW(sprintf("%O", ({ x, y, x })))
gives: "({ })\n([ ])\n({ })([ ])\n({ ({ }), ([ ]), ({ }) })\n"

=== items_of_each_kind
# An object that ended is 0 in an array too.
code: ENDED(x = ({ -1, "ä\n\"", hall, gone, ({ }) }), sprintf("%O", x))
gives: "({ -1, \"ä\\n\\\"\", /room/hall, 0, ({ }) })\n"

=== filled_arrays
# An array or mapping is filled as a text is, never with zeros.
code: SHOW(sprintf("%25O|%-7O|%07O|", ([ "a": 1, 2: ({ }) ]), ({ }), ({ })))
gives: "   ([ \"a\": 1, 2: ({ }) ])|({ })  |  ({ })|\n"

=== keys_that_ended
# Their pairs are not there, also the only one; a value that ended is 0.
code: ENDED(x = ([ gone: 1 ]), sprintf("%O", x))
code: ENDED(x = ([ gone: 1, 2: 3, lost: 4, sword: gone, ({ }): -4 ]), sprintf("%O", x))
code: ENDED(x = ([ gone: 1, 1: hall ]), sprintf("%O", x))
gives: "([ ])\n([ 2: 3, /obj/sword: 0, ({ }): -4 ])\n([ 1: /room/hall ])\n"

=== arrays_inside_themselves
# An array inside itself is not told again, wherever it is met; one beside itself is.
code: x = ({ 1, 2 }); x[1] = x; SHOW(sprintf("%O", x)) y = ({ x, 3, x }); SHOW(sprintf("%O", y)) x[0] = y; SHOW(sprintf("%O", x))
gives: "({ 1, <...> })\n({ ({ 1, <...> }), 3, ({ 1, <...> }) })\n({ ({ <...>, 3, <...> }), <...> })\n"

=== mappings_inside_themselves
# As a value and as a key.
code: x = ([ "it": 0, 1: 2 ]); x["it"] = x; x[x] = 3; SHOW(sprintf("%O", x))
gives: "([ \"it\": <...>, 1: 2, <...>: 3 ])\n"

=== deep_arrays
# 20 of them inside one another are told, and a deeper one is not.
code: int i; x = 7; for (i = 0; i < 20; i++) x = ({ x }); SHOW(sprintf("%O", x)) SHOW(sprintf("%O", ({ x })))
gives: "({ ({ ({ ({ ({ ({ ({ ({ ({ ({ ({ ({ ({ ({ ({ ({ ({ ({ ({ ({ 7 }) }) }) }) }) }) }) }) }) }) }) }) }) }) }) }) }) }) }) })\n"
       "({ ({ ({ ({ ({ ({ ({ ({ ({ ({ ({ ({ ({ ({ ({ ({ ({ ({ ({ ({ <...> }) }) }) }) }) }) }) }) }) }) }) }) }) }) }) }) }) }) }) })\n"

=== deep_mappings
# So do mappings count, as keys and as values.
code: int i; x = 7; for (i = 0; i < 20; i++) x = ([ 1: x ]); SHOW(sprintf("%O", x))
code: y = 7; for (i = 0; i < 20; i++) y = ({ y }); SHOW(sprintf("%O", ([ x: y ])))
gives: "([ 1: ([ 1: ([ 1: ([ 1: ([ 1: ([ 1: ([ 1: ([ 1: ([ 1: ([ 1: ([ 1: ([ 1: ([ 1: ([ 1: ([ 1: ([ 1: ([ 1: ([ 1: ([ 1: ([ 1: 7 ]) ]) ]) ]) ]) ]) ]) ]) ]) ]) ]) ]) ]) ]) ]) ]) ]) ]) ]) ])\n"
       "([ ([ 1: ([ 1: ([ 1: ([ 1: ([ 1: ([ 1: ([ 1: ([ 1: ([ 1: ([ 1: ([ 1: ([ 1: ([ 1: ([ 1: ([ 1: ([ 1: ([ 1: ([ 1: ([ 1: <...> ]) ]) ]) ]) ]) ]) ]) ]) ]) ]) ]) ]) ]) ]) ]) ]) ]) ]) ]): ({ ({ ({ ({ ({ ({ ({ ({ ({ ({ ({ ({ ({ ({ ({ ({ ({ ({ ({ <...> }) }) }) }) }) }) }) }) }) }) }) }) }) }) }) }) }) }) }) ])\n"

=== arrays_where_others_are_wanted
# No part but `%O` takes an array or a mapping, as a value, a width or a precision.
code: string s; foreach (s : ({ "%s", "%d", "%x", "%c", "%*%", "%.*%" })) { SHOW(sprintf(s, ({ }))) SHOW(sprintf(s, ([ ]))) }
gives: "*Bad argument 2 to sprintf\n*Bad argument 2 to sprintf\n*Bad argument 2 to sprintf\n*Bad argument 2 to sprintf\n"
       "*Bad argument 2 to sprintf\n*Bad argument 2 to sprintf\n*Bad argument 2 to sprintf\n*Bad argument 2 to sprintf\n"
       "*Bad argument 2 to sprintf\n*Bad argument 2 to sprintf\n*Bad argument 2 to sprintf\n*Bad argument 2 to sprintf\n"

=== long_cells
# A text in an array, or in a mapping, up to the longest text that it makes.
code: SIZE(sprintf("%O", ({ many(99992, "ä") }))) SIZE(sprintf("%O", ({ many(99993, "ä") })))
code: SIZE(sprintf("%O", ([ 1: many(99989, "ä") ]))) SIZE(sprintf("%O", ([ 1: many(99990, "ä") ])))
gives: "100000\n*Text too long\n100000\n*Text too long\n"

=== a_wide_tree
# Ten times ten items, twenty deep, are too long, and are not told to their end.
code: int i; x = 7; for (i = 0; i < 20; i++) x = ({ x, x, x, x, x, x, x, x, x, x }); SIZE(sprintf("%O", x))
gives: "*Text too long\n"

=== longest_with_texts
# A text of 100000 code points may be made, and no longer one: with texts and percent signs at its end.
code: SIZE(sprintf(many(100000, "ä")))
code: SIZE(sprintf("%s%.0s%s", many(100000, "ä"), "x", ""))
code: SIZE(sprintf("%s%s", many(100000, "ä"), "x"))
code: SIZE(sprintf(many(99998, "ä") + "%s", "äö"))
code: SIZE(sprintf("%s%s", many(99999, "ä"), "äö"))
code: SIZE(sprintf("%s%.1s", many(99999, "ä"), "äö"))
code: SIZE(sprintf("%s%%", many(99999, "ä")))
code: SIZE(sprintf("%s%%", many(100000, "ä")))
gives: "100000\n"
       "100000\n"
       "*Text too long\n"
       "100000\n"
       "*Text too long\n"
       "100000\n"
       "100000\n"
       "*Text too long\n"

=== longest_with_integers
# With integers and code points at its end.
code: SIZE(sprintf(many(99998, "ä") + "%d", -1))
code: SIZE(sprintf("%s%d", many(99999, "ä"), -1))
code: SIZE(sprintf(many(99997, "ä") + "%x", 4095))
code: SIZE(sprintf(many(99998, "ä") + "%x", 4095))
code: SIZE(sprintf(many(99997, "ä") + "%o", 64))
code: SIZE(sprintf(many(99998, "ä") + "%X", 4095))
code: SIZE(sprintf("%s%c", many(99999, "ä"), 228))
code: SIZE(sprintf("%s%c", many(100000, "ä"), 228))
gives: "100000\n"
       "*Text too long\n"
       "100000\n"
       "*Text too long\n"
       "100000\n"
       "*Text too long\n"
       "100000\n"
       "*Text too long\n"

=== longest_with_fills
# With what is filled at its end.
code: SIZE(sprintf(many(90001, "ä") + "%9999s", ""))
code: SIZE(sprintf(many(90002, "ä") + "%9999s", ""))
code: SIZE(sprintf(many(90001, "ä") + "%-*s", 9999, "ä"))
code: SIZE(sprintf(many(90002, "ä") + "%-*s", 9999, "ä"))
code: SIZE(sprintf(many(90001, "ä") + "%09999d", -1))
code: SIZE(sprintf(many(90002, "ä") + "%09999d", -1))
code: SIZE(sprintf(many(99996, "ä") + "%-5%"))
gives: "100000\n"
       "*Text too long\n"
       "100000\n"
       "*Text too long\n"
       "100000\n"
       "*Text too long\n"
       "*Text too long\n"

=== longest_with_any_values
# With values as `%O` tells them at its end.
code: SIZE(sprintf(many(99995, "ä") + "%O", "äö\n"))
code: SIZE(sprintf(many(99994, "ä") + "%O", "äö日本"))
code: SIZE(sprintf(many(99995, "ä") + "%O", "äö日本"))
code: SIZE(sprintf(many(99990, "ä") + "%O", hall))
code: SIZE(sprintf(many(99991, "ä") + "%O", hall))
gives: "*Text too long\n"
       "100000\n"
       "*Text too long\n"
       "100000\n"
       "*Text too long\n"

=== the_length_comes_after_the_part
# The length is looked at after each part: a fault of the part comes first.
code: SIZE(sprintf("%s%q", many(100000, "ä")))
code: SIZE(sprintf("%s%d", many(100000, "ä")))
code: SIZE(sprintf("%s%d", many(100000, "ä"), "x"))
code: SIZE(sprintf("%s%.2s%9999s", "x", "äöü", "", 1))
gives: "*Bad format\n"
       "*Too few arguments\n"
       "*Bad argument 3 to sprintf\n"
       "10002\n"

=== long_texts
# A long text as a value, in quotes with a backslash before some of its letters, and with a percent sign behind it.
code: SIZE(sprintf("%s", many(100000, "ä")))
code: SIZE(sprintf("%9999s", many(100000, "ä")))
code: SIZE(sprintf("%O", many(99998, "ä")))
code: SIZE(sprintf("%O", many(99999, "ä")))
code: SIZE(sprintf("%O", many(49999, "\"")))
code: SIZE(sprintf("%O", many(50000, "\\")))
code: SIZE(sprintf("%O", many(49999, "\n")))
code: SIZE(sprintf("%s%%", many(99999, "%")))
code: SIZE(sprintf("%s%%", many(100000, "%")))
gives: "100000\n"
       "100000\n"
       "100000\n"
       "*Text too long\n"
       "100000\n"
       "*Text too long\n"
       "100000\n"
       "100000\n"
       "*Text too long\n"
