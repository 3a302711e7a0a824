# The text of a line: its bytes as UTF-8, where each longest run of bytes that belong to no code point is one U+FFFD (65533). What comes is
# written as the numbers of its code points.
--- /secure/master.c
object connect() { return this_object(); }
int logon() { input_to("got"); return 1; }
void got(string s) {
  int i;
  string codes;
  codes = "" + sizeof(s) + ":";
  for (i = 0; i < sizeof(s); i++) codes += " " + s[i];
  write(codes + "\n");
}

=== nothing
--- play
connect 1
line 1:
end
--- written
to 1: "0:\n"
end

=== plain_letters
--- play
connect 1
line 1: look
end
--- written
to 1: "4: 108 111 111 107\n"
end

=== two_bytes_and_a_cut_one
--- play
connect 1
line 1 "\xc3\xa9t\xe9"
end
--- written
to 1: "3: 233 116 65533\n"
end

=== bytes_that_begin_nothing
--- play
connect 1
line 1 "\xff\xfe"
end
--- written
to 1: "1: 65533\n"
end

=== bytes_that_only_go_on
--- play
connect 1
line 1 "a\xffb\x80\x80"
end
--- written
to 1: "4: 97 65533 98 65533\n"
end

=== first_of_two_alone
--- play
connect 1
line 1 "\xc3"
end
--- written
to 1: "1: 65533\n"
end

=== three_bytes
--- play
connect 1
line 1 "\xe2\x82\xac"
end
--- written
to 1: "1: 8364\n"
end

=== two_of_three
--- play
connect 1
line 1 "\xe2\x82"
end
--- written
to 1: "1: 65533\n"
end

=== two_of_three_before_a_letter
--- play
connect 1
line 1 "\xe2\x82a"
end
--- written
to 1: "2: 65533 97\n"
end

=== a_surrogate
--- play
connect 1
line 1 "\xed\xa0\x80"
end
--- written
to 1: "1: 65533\n"
end

=== a_letter_spelled_too_long
--- play
connect 1
line 1 "\xc0\x80"
end
--- written
to 1: "1: 65533\n"
end

=== four_bytes_and_a_letter
--- play
connect 1
line 1 "\xf0\x9f\x98\x80!"
end
--- written
to 1: "2: 128512 33\n"
end

=== above_the_last_code_point
--- play
connect 1
line 1 "\xf4\x90\x80\x80"
end
--- written
to 1: "1: 65533\n"
end

=== between_bytes_of_none
--- play
connect 1
line 1 "\xff\xc3\xa9\xff"
end
--- written
to 1: "3: 65533 233 65533\n"
end
