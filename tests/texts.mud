# Efuns of texts: their pieces, letters, places and lengths.
--- /obj/sword.c
--- /room/hall.c
--- /secure/master.c
// What an expression comes to, or its error; and the same where two objects end once something was set.
#define SHOW(e) error = catch(value = e); if (error) write(error); else printf("%O\n", value);
#define ENDED(set, e) gone = clone_object("/obj/sword"); lost = clone_object("/obj/sword"); set; destruct(gone); destruct(lost); SHOW(e)
mixed error, value, x, y, z;
object hall, sword, gone, lost;
object connect() { hall = load_object("/room/hall"); sword = clone_object("/obj/sword"); return this_object(); }
int logon() { @@ return 1; }
--- play
connect 1
end

=== pieces_between
# What stands between the places of a text, also nothing; from the left, and places do not overlap.
code: SHOW(explode("a,b,,c", ","))
code: SHOW(explode("", ","))
code: SHOW(explode(",", ","))
code: SHOW(explode(",a,", ","))
code: SHOW(explode("abc", ","))
code: SHOW(explode("abc", "abc"))
code: SHOW(explode("aaaaa", "aa"))
code: SHOW(explode("a, b, c", ", "))
code: SHOW(explode("ab", "abc"))
code: SHOW(explode("a,b", ","))
--- written
to 1: "({ \"a\", \"b\", \"\", \"c\" })\n"
      "({ \"\" })\n"
      "({ \"\", \"\" })\n"
      "({ \"\", \"a\", \"\" })\n"
      "({ \"abc\" })\n"
      "({ \"\", \"\" })\n"
      "({ \"\", \"\", \"a\" })\n"
      "({ \"a\", \"b\", \"c\" })\n"
      "({ \"ab\" })\n"
      "({ \"a\", \"b\" })\n"
end

=== pieces_by_nothing
# By the empty text each code point is a piece.
code: SHOW(explode("äb", ""))
code: SHOW(explode("", ""))
--- written
to 1: "({ \"ä\", \"b\" })\n"
      "({ })\n"
end

=== texts_joined
# The texts of an array with a text between them; items that are no texts are left out, objects too.
code: SHOW(implode(({ "a", "b", "", "c" }), ","))
code: SHOW(implode(({ }), ","))
code: SHOW(implode(({ "a" }), ","))
code: SHOW(implode(({ "", "" }), ","))
code: SHOW(implode(({ "a", "b" }), ""))
code: ENDED(x = ({ 1, "a", sword, "b", gone }), implode(x, "-"))
code: SHOW(implode(({ 1, 2 }), "-"))
code: SHOW(implode(({ "a", 1, "b" }), "-"))
--- written
to 1: "\"a,b,,c\"\n"
      "\"\"\n"
      "\"a\"\n"
      "\",\"\n"
      "\"ab\"\n"
      "\"a-b\"\n"
      "\"\"\n"
      "\"a-b\"\n"
end

=== letters_of_ascii
# Only letters of ASCII are changed, and what stands beside them in the table is not.
code: SHOW(lower_case("AZ@[`{aÄ"))
code: SHOW(lower_case(""))
code: SHOW(upper_case("az@[`{Aä"))
code: SHOW(upper_case(""))
code: SHOW(lower_case("AbÄ"))
code: SHOW(upper_case("aBä"))
--- written
to 1: "\"az@[`{aÄ\"\n"
      "\"\"\n"
      "\"AZ@[`{Aä\"\n"
      "\"\"\n"
      "\"abÄ\"\n"
      "\"ABä\"\n"
end

=== first_letters
# The first code point alone, if it is a letter of ASCII.
code: SHOW(capitalize("abc"))
code: SHOW(capitalize("a"))
code: SHOW(capitalize(""))
code: SHOW(capitalize("äa"))
code: SHOW(capitalize("ab"))
--- written
to 1: "\"Abc\"\n"
      "\"A\"\n"
      "\"\"\n"
      "\"äa\"\n"
      "\"Ab\"\n"
end

=== ends_without_spaces
# Spaces, tabs, ends of lines and carriage returns go, at both ends alone; other spaces stay.
code: SHOW(trim(" \t a b\r\n"))
code: SHOW(trim(" \t\r\n"))
code: SHOW(trim(""))
code: SHOW(trim("\x0ba\xa0"))
code: SHOW(trim(" a b\t"))
--- written
to 1: "\"a b\"\n"
      "\"\"\n"
      "\"\"\n"
      "\"\x0ba\xc2\xa0\"\n"
      "\"a b\"\n"
end

=== first_places
# The first place of a text in another, in code points; the empty one is everywhere.
code: SHOW(strstr("abcabc", "c"))
code: SHOW(strstr("abc", "x"))
code: SHOW(strstr("abc", "abcd"))
code: SHOW(strstr("", "a"))
code: SHOW(strstr("", ""))
code: SHOW(strstr("aab", "ab"))
code: SHOW(strstr("äöü", "ü"))
code: SHOW(strstr("abab", "c"))
--- written
to 1: "2\n"
      "-1\n"
      "-1\n"
      "-1\n"
      "0\n"
      "1\n"
      "2\n"
      "-1\n"
end

=== places_from
# From a place on, which counts too; what is negative is the beginning.
code: SHOW(strstr("abcabc", "c", 2))
code: SHOW(strstr("abcabc", "c", 3))
code: SHOW(strstr("abcabc", "c", 5))
code: SHOW(strstr("abcabc", "c", 6))
code: SHOW(strstr("abcabc", "a", -3))
code: SHOW(strstr("abcabc", "c", -9223372036854775807 - 1))
code: SHOW(strstr("abcabc", "c", 9223372036854775807))
code: SHOW(strstr("abc", "", 2))
code: SHOW(strstr("abab", "b", 2))
--- written
to 1: "2\n"
      "5\n"
      "5\n"
      "-1\n"
      "0\n"
      "2\n"
      "-1\n"
      "2\n"
      "3\n"
end

=== lengths
# Lengths count code points.
code: SHOW(strlen("äbc"))
code: SHOW(sizeof(""))
code: SHOW(sizeof("äöü"))
--- written
to 1: "3\n"
      "0\n"
      "3\n"
end

=== code_points_in_a_text
# The place of a code point; integers that are none have no place, also those that end in the same bits.
code: SHOW(member("äbc", 228))
code: SHOW(member("äbc", 99))
code: SHOW(member("abc", -97))
code: SHOW(member("abc", 4294967393))
--- written
to 1: "0\n"
      "2\n"
      "-1\n"
      "-1\n"
end

=== values_as_texts
# An integer in decimal, an object by its name; a text is itself.
code: SHOW(to_string(sword))
code: SHOW(to_string(-12))
code: SHOW(to_string(""))
--- written
to 1: "\"/obj/sword#1\"\n"
      "\"-12\"\n"
      "\"\"\n"
end
