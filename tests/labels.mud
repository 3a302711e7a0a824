# Labels of a `switch`: which of them meet an earlier one. A row is the labels of one `switch`.
words: check
--- /t.c
void f() { switch (1) { @@ ; } }

=== integers
# Different integers.
code: case 1:
code: case 2:
code: case -1:
--- written
1 files, 0 faults

=== equal_integers
# Two that are equal.
code: case 1:
code: case 2:
code: case 1:
--- written
/t.c line 3: label used twice
1 files, 1 faults

=== equal_negatives
# Two negative ones.
code: case -1:
code: case -1:
--- written
/t.c line 2: label used twice
1 files, 1 faults

=== minus_0
# -0 is 0.
code: case 0:
code: case -0:
--- written
/t.c line 2: label used twice
1 files, 1 faults

=== hexadecimal
# A number may be spelled in two ways.
code: case 16:
code: case 0x10:
--- written
/t.c line 2: label used twice
1 files, 1 faults

=== extremes
# The greatest number and its negative are two.
code: case 9223372036854775807:
code: case -9223372036854775807:
code: case 9223372036854775807:
--- written
/t.c line 3: label used twice
1 files, 1 faults

=== range_before_integers
# Integers beside an earlier range.
code: case 3 .. 6:
code: case 2:
code: case 7:
--- written
1 files, 0 faults

=== range_before_integers_in_it
# Its first, its last and one between.
code: case 3 .. 6:
code: case 3:
code: case 6:
code: case 4:
--- written
/t.c line 2: label used twice
/t.c line 3: label used twice
/t.c line 4: label used twice
1 files, 3 faults

=== range_of_negatives
# A range of negative numbers.
code: case -6 .. -3:
code: case -2:
code: case -3:
--- written
/t.c line 3: label used twice
1 files, 1 faults

=== integers_before_range
# A range between earlier integers.
code: case 2:
code: case 7:
code: case 3 .. 6:
--- written
1 files, 0 faults

=== first_of_a_range
# An earlier integer is the first of a range.
code: case 3:
code: case 3 .. 6:
--- written
/t.c line 2: label used twice
1 files, 1 faults

=== last_of_a_range
# An earlier integer is its last.
code: case 6:
code: case 3 .. 6:
--- written
/t.c line 2: label used twice
1 files, 1 faults

=== range_of_all
# An earlier integer in a range of nearly all.
code: case 0:
code: case -9223372036854775807 .. 9223372036854775807:
--- written
/t.c line 2: label used twice
1 files, 1 faults

=== ranges
# Ranges side by side.
code: case 3 .. 6:
code: case 7 .. 9:
code: case 1 .. 2:
--- written
1 files, 0 faults

=== ranges_that_touch
# The last of one is the first of the other.
code: case 3 .. 6:
code: case 6 .. 9:
--- written
/t.c line 2: label used twice
1 files, 1 faults

=== ranges_that_touch_below
# The first of one is the last of the other.
code: case 3 .. 6:
code: case 1 .. 3:
--- written
/t.c line 2: label used twice
1 files, 1 faults

=== range_in_a_range
# A range in an earlier one.
code: case 3 .. 6:
code: case 4 .. 5:
--- written
/t.c line 2: label used twice
1 files, 1 faults

=== range_round_a_range
# A range round an earlier one.
code: case 4 .. 5:
code: case 3 .. 6:
--- written
/t.c line 2: label used twice
1 files, 1 faults

=== ranges_of_one_number
# Two ranges of one number.
code: case 3 .. 3:
code: case 3 .. 3:
--- written
/t.c line 2: label used twice
1 files, 1 faults

=== empty_ranges
# A range whose last is below its first has no values, and may stand twice.
code: case 6 .. 3:
code: case 4:
code: case 6 .. 3:
--- written
1 files, 0 faults

=== empty_range_in_a_range
# It stands in another.
code: case 1 .. 9:
code: case 6 .. 3:
--- written
1 files, 0 faults

=== empty_range_before_a_range
# And before another.
code: case 6 .. 3:
code: case 1 .. 9:
--- written
1 files, 0 faults

=== faulty_labels_count
# A label with a fault counts for those behind it.
code: case 1 .. 5:
code: case 5 .. 9:
code: case 7:
code: case 10:
--- written
/t.c line 2: label used twice
/t.c line 3: label used twice
1 files, 2 faults

=== texts
# Texts that differ.
code: case "a":
code: case "A":
code: case "":
code: case "aa":
--- written
1 files, 0 faults

=== equal_texts
# Two that are equal, also empty ones.
code: case "a":
code: case "":
code: case "a":
code: case "":
--- written
/t.c line 3: label used twice
/t.c line 4: label used twice
1 files, 2 faults

=== text_of_a_number
# A text is no number.
code: case "1":
code: case 1:
code: case 0 .. 9:
--- written
/t.c line 3: label used twice
1 files, 1 faults

=== default
# The label for all others, and others.
code: default:
code: case 1:
code: case "a":
--- written
1 files, 0 faults

=== defaults
# Three of them: each but the first is a fault.
code: default:
code: case 1:
code: default:
code: default:
--- written
/t.c line 3: label used twice
/t.c line 4: label used twice
1 files, 2 faults

=== statements_between
# Statements stand between labels.
code: case 1: ;
code: case 2: ; break;
code: case 1: ;
code: case 2:
--- written
/t.c line 3: label used twice
/t.c line 4: label used twice
1 files, 2 faults

=== switch_in_a_switch
# A `switch` in another has labels of its own.
code: case 1: switch (1) { case 1: ;
code: case 2: ; }
code: case 2:
code: case 1:
--- written
/t.c line 4: label used twice
1 files, 1 faults
