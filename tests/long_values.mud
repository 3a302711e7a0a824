# Lengths at their limits: 10000 items and 100000 code points are allowed, and one more is refused.
--- /secure/master.c
// What an expression comes to, or its error.
#define SHOW(e) error = catch(value = e); if (error) write(error); else printf("%O\n", value);
mixed error, value;
string all;
int *count;
// So many letters a, the last of which is another one.
string letters(int n, string last) { return all[0..n - 2] + last; }
// So many zeros, the last of which is another integer.
int *zeros(int n, int last) { int *a; a = allocate(n); a[n - 1] = last; return a; }
// So many integers from 0 on; and a mapping of them to themselves.
int *numbers(int n) { return count[0..n - 1]; }
mapping numbered(int n) { return mkmapping(numbers(n), numbers(n)); }
// So many equal texts.
string *texts(int n, string s) { string *a; a = allocate(n); while (n--) a[n] = s; return a; }
object connect() {
  int i;
  all = "aaaaaaaaaa";
  while (strlen(all) < 50000) all += all;
  all += all[0..99999 - strlen(all)];
  count = allocate(10000);
  for (i = 0; i < 10000; i++) count[i] = i;
  return this_object();
}
int logon() { @@ return 1; }
--- play
connect 1
end

=== arrays_of_zeros
# As many zeros as an array may have, and one more.
code: SHOW(sizeof(allocate(10000)))
code: SHOW(member(allocate(10000), 1))
code: SHOW(sizeof(allocate(10001)))
code: SHOW(sizeof(allocate(9223372036854775807)))
gives: "10000\n"
       "-1\n"
       "*Array too long\n"
       "*Array too long\n"

=== pieces
# As many pieces as an array may have, and one more: by the empty text, and by a letter.
code: SHOW(sizeof(explode(letters(10000, "b"), "")))
code: SHOW(member(explode(letters(10000, "b"), ""), "b"))
code: SHOW(sizeof(explode(letters(10001, "b"), "")))
code: SHOW(sizeof(explode(letters(100000, "b"), "")))
code: SHOW(sizeof(explode(letters(10000, "b"), "a")))
code: SHOW(member(explode(letters(10000, "b"), "a"), "b"))
code: SHOW(sizeof(explode(letters(10000, "a"), "a")))
code: SHOW(sizeof(explode(letters(10001, "b"), "a")))
code: SHOW(sizeof(explode(letters(100000, "b"), "b")))
gives: "10000\n"
       "9999\n"
       "*Array too long\n"
       "*Array too long\n"
       "10000\n"
       "9999\n"
       "*Array too long\n"
       "*Array too long\n"
       "2\n"

=== copies
# Copies of the longest array and of the largest mapping.
code: SHOW(member(copy(zeros(10000, 7)), 7))
code: SHOW(sizeof(copy(numbered(10000))))
code: SHOW(member(copy(numbered(10000)), 9999))
gives: "9999\n"
       "10000\n"
       "1\n"

=== keys_and_values
# The keys and values of the largest mapping, and how it is made of two arrays.
code: SHOW(member(m_indices(numbered(10000)), 9999))
code: SHOW(member(m_values(numbered(10000)), 9999))
code: SHOW(sizeof(mkmapping(numbers(10000), zeros(10000, 7))))
code: SHOW(member(mkmapping(numbers(10000), zeros(9999, 7)), 9999))
code: SHOW(m_values(mkmapping(zeros(10000, 1), zeros(10000, 7))))
gives: "9999\n"
       "9999\n"
       "10000\n"
       "0\n"
       "({ 0, 7 })\n"

=== joined_texts
# Texts of an array, joined to the longest text, and to one that would be longer.
code: SHOW(strlen(implode(texts(10000, "0123456789"), "")))
code: SHOW(strlen(implode(texts(10000, "0123456789"), ",")))
code: SHOW(strlen(implode(texts(9091, "0123456789"), ",")))
code: SHOW(strlen(implode(texts(7143, "0123456789012"), ",")))
gives: "100000\n"
       "*Text too long\n"
       "100000\n"
       "*Text too long\n"

=== letters
# The last letter of the longest text is changed, and its first.
code: SHOW(strstr(lower_case(letters(100000, "B")), "b"))
code: SHOW(strstr(upper_case(letters(100000, "b")), "B"))
code: SHOW(strstr(upper_case(letters(100000, "b")), "a"))
code: SHOW(strlen(capitalize(letters(100000, "b"))))
code: SHOW(strstr(capitalize(letters(100000, "b")), "Aa"))
gives: "99999\n"
       "99999\n"
       "-1\n"
       "100000\n"
       "0\n"

=== ends_without_spaces
# The longest text with and without a space at its end, and as a text.
code: SHOW(strlen(trim(letters(100000, " "))))
code: SHOW(strlen(trim(letters(100000, "b"))))
code: SHOW(strlen(to_string(letters(100000, "b"))))
gives: "99999\n"
       "100000\n"
       "100000\n"

=== forms
# What a form makes of two texts, and of one in quotes.
code: SHOW(strlen(sprintf("%s%s", letters(50000, "b"), letters(50000, "c"))))
code: SHOW(strstr(sprintf("%s%s", letters(50000, "b"), letters(50000, "c")), "c"))
code: SHOW(strlen(sprintf("%s%s", letters(50000, "b"), letters(50001, "c"))))
code: SHOW(strlen(sprintf("%O", letters(99998, "b"))))
code: SHOW(strlen(sprintf("%O", letters(99999, "b"))))
code: SHOW(strlen(sprintf("%O", letters(99998, "\n"))))
gives: "100000\n"
       "99999\n"
       "*Text too long\n"
       "100000\n"
       "*Text too long\n"
       "*Text too long\n"

=== sizes
# Sizes of the longest.
code: SHOW(strlen(letters(100000, "b")))
code: SHOW(sizeof(letters(100000, "b")))
code: SHOW(sizeof(zeros(10000, 1)))
code: SHOW(sizeof(numbered(10000)))
gives: "100000\n"
       "100000\n"
       "10000\n"
       "10000\n"

=== first_places
# Places in the longest text.
code: SHOW(strstr(letters(100000, "b"), "b"))
code: SHOW(strstr(letters(100000, "b"), "ab", 99998))
code: SHOW(strstr(letters(100000, "b"), "ab", 99999))
code: SHOW(strstr(letters(100000, "b"), letters(100000, "b")))
code: SHOW(strstr(letters(100000, "b"), letters(50000, "c")))
gives: "99999\n"
       "99998\n"
       "-1\n"
       "0\n"
       "-1\n"

=== equal_items
# The last place of the longest array, and of the longest text; and the last key of the largest mapping.
code: SHOW(member(zeros(10000, 7), 7))
code: SHOW(member(letters(100000, "b"), 98))
code: SHOW(member(letters(100000, "b"), 99))
code: SHOW(member(numbered(10000), 9999))
code: SHOW(member(numbered(10000), 10000))
gives: "9999\n"
       "99999\n"
       "-1\n"
       "1\n"
       "0\n"

=== two_texts
# Two halves make the longest text, to which no letter can be added, and no integer.
code: string half, whole; half = letters(50000, "a"); whole = half + half; SHOW(strlen(whole)) SHOW(whole + "x") SHOW(whole + 1)
gives: "100000\n*Text too long\n*Text too long\n"

=== two_arrays
# Two halves make the longest array, to which no item can be added; and what is left of it without its items.
code: mixed *half, *whole; half = zeros(5000, 0); whole = half + half; SHOW(sizeof(whole)) SHOW(whole + ({ 7 })) SHOW(whole - ({ 0 }))
gives: "10000\n*Array too long\n({ })\n"
