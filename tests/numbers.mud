# Efuns of numbers: the least and the most, absolute values, and texts as integers.
--- /obj/sword.c
--- /room/hall.c
--- /secure/master.c
// What an expression comes to, or its error; and the same where two objects end once something was set.
#define SHOW(e) error = catch(value = e); if (error) write(error); else printf("%O\n", value);
#define ENDED(set, e) gone = clone_object("/obj/sword"); lost = clone_object("/obj/sword"); set; destruct(gone); destruct(lost); SHOW(e)
mixed error, value, x, y, z;
object hall, sword, gone, lost;
object connect() { hall = load_object("/room/hall"); sword = clone_object("/obj/sword"); return this_object(); }
int logon() { @@ return 1; }
--- play
connect 1
end

=== least_and_most
# The lesser and the greater of two integers, also at the ends of 64 bits.
code: SHOW(min(-3, 2))
code: SHOW(min(9223372036854775807, -9223372036854775807 - 1))
code: SHOW(max(-3, 2))
code: SHOW(max(-9223372036854775807 - 1, 9223372036854775807))
code: SHOW(max(-3, -3))
code: SHOW(min(-1, 2))
code: SHOW(max(-1, 2))
--- written
to 1: "-3\n"
      "-9223372036854775808\n"
      "2\n"
      "9223372036854775807\n"
      "-3\n"
      "-1\n"
      "2\n"
end

=== absolute_values
# The least integer has no absolute value.
code: SHOW(abs(-3))
code: SHOW(abs(3))
code: SHOW(abs(0))
code: SHOW(abs(-9223372036854775807))
code: SHOW(abs(-9223372036854775807 - 1))
code: SHOW(abs(-2))
--- written
to 1: "3\n"
      "3\n"
      "0\n"
      "9223372036854775807\n"
      "*Overflow\n"
      "2\n"
end

=== an_integer_is_itself
# An integer as an integer.
code: SHOW(to_int(-9223372036854775807 - 1))
gives: "-9223372036854775808\n"

=== leading_digits
# A sign and digits at the beginning of a text count; without digits there it is 0.
code: SHOW(to_int(""))
code: SHOW(to_int("-12ab"))
code: SHOW(to_int("+7"))
code: SHOW(to_int("007"))
code: SHOW(to_int("-0"))
code: SHOW(to_int("-"))
code: SHOW(to_int("+-7"))
code: SHOW(to_int("--7"))
code: SHOW(to_int("ab7"))
code: SHOW(to_int(" 7"))
code: SHOW(to_int("0x1f"))
code: SHOW(to_int("+"))
code: SHOW(to_int("a1"))
code: SHOW(to_int("0012x9"))
--- written
to 1: "0\n"
      "-12\n"
      "7\n"
      "7\n"
      "0\n"
      "0\n"
      "0\n"
      "0\n"
      "0\n"
      "0\n"
      "0\n"
      "0\n"
      "0\n"
      "12\n"
end

=== digits_at_the_end_of_64_bits
# What is beyond 64 bits is an error, and zeros in front count for nothing.
code: SHOW(to_int("9223372036854775807"))
code: SHOW(to_int("9223372036854775808"))
code: SHOW(to_int("-9223372036854775808x"))
code: SHOW(to_int("-9223372036854775809"))
code: SHOW(to_int("00000000000000000000000000000012"))
code: SHOW(to_int("99999999999999999999999999999999"))
code: SHOW(to_int("-9223372036854775808"))
code: SHOW(to_int("-9223372036854775808 0"))
code: SHOW(to_int("92233720368547758080"))
code: SHOW(to_int("-92233720368547758080x"))
code: SHOW(to_int("0000000000000000000000000000009"))
code: SHOW(to_int("00000000000009223372036854775808"))
code: SHOW(to_int("99999999999999999999"))
--- written
to 1: "9223372036854775807\n"
      "*Overflow\n"
      "-9223372036854775808\n"
      "*Overflow\n"
      "12\n"
      "*Overflow\n"
      "-9223372036854775808\n"
      "-9223372036854775808\n"
      "*Overflow\n"
      "*Overflow\n"
      "9\n"
      "*Overflow\n"
      "*Overflow\n"
end

=== words_of_random
# With the seed 0 the words are 16294208416658607535, 7960286522194355700, 487617019471545679 and so on: each bound above 0 draws
# one, and a bound of 0 or less draws none.
code: SHOW(random(0)) SHOW(random(-1)) SHOW(random(10)) SHOW(random(1000)) SHOW(random(1)) SHOW(random(10)) SHOW(random(100))
gives: "0\n0\n5\n700\n0\n4\n47\n"

=== no_word_for_the_least
# The least integer and an object that ended are bounds of 0 or less, so the word for the greatest is the first one, 16294208416658607535.
code: SHOW(random(-9223372036854775807 - 1)) SHOW(random(-10)) ENDED(x = gone, random(x)) SHOW(random(9223372036854775807))
gives: "0\n0\n0\n7070836379803831728\n"
