# What a `logon` writes.
--- /secure/master.c
object connect() { return this_object(); }
int logon() { @@ return 1; }
--- play
connect 1
end

=== one_array_by_two_names
# A change through one name is seen through the other.
code: int *a, *b; a = ({1, 2}); b = a; b[0] = 9; write(a[0] + "\n");
gives: "9\n"

=== array_in_itself
# An array may be an item of itself.
code: mixed *a; a = ({0}); a[0] = a; write(a == a[0]);
gives: "1"

=== division_by_zero_is_caught
# What is caught: an error as its text.
code: write(catch(1 / 0));
gives: "*Division by zero\n"

=== thrown_number_is_caught
# What is caught: a value that was thrown.
code: write(catch(throw(5)));
gives: "5"

=== index_is_caught
# What is caught: an index that no item has.
code: write(catch(({1})[1]));
gives: "*Illegal index\n"

=== sum_overflows
# Integers end at 64 bits.
code: write(catch(9223372036854775807 + 1));
gives: "*Overflow\n"

=== greatest_less_one
# The greatest integer less 1.
code: write(9223372036854775807 - 1);
gives: "9223372036854775806"

=== division_overflows
# The least integer has no opposite.
code: write(catch((-9223372036854775807 - 1) / -1));
gives: "*Overflow\n"

=== division_cuts_to_0
# Division cuts towards 0.
code: write(-7 / 2);
gives: "-3"

=== remainder_has_the_sign_of_the_left
# A remainder has the sign of the left operand.
code: write(-7 % 2);
gives: "-1"

=== shift_into_the_sign
# A shift into the sign.
code: write(1 << 63);
gives: "-9223372036854775808"

=== shift_by_64
# A shift by 64 gives 0.
code: write(1 << 64);
gives: "0"

=== shift_of_minus_one
# A shift to the right by more than 63 keeps the sign.
code: write(-1 >> 70);
gives: "-1"

=== random_with_seed_0
# The first random number below 10 with the seed 0.
code: write(random(10));
gives: "5"

=== longest_array
# An array has at most 10000 items.
code: write(sizeof(allocate(10000))); write(catch(allocate(10001)));
gives: "10000*Array too long\n"

=== arrays_subtracted
# What is subtracted is taken out as often as it stands there.
code: write(sizeof(({1, 2, 1}) - ({1})) + (({1, 2, 1}) - ({1}))[0]);
gives: "3"

=== mappings_added
# Of a key in both mappings the right value counts, in the place of the left.
code: mapping m; m = ([1: 2]) + ([1: 3, 0: 4]); write(m_indices(m)[0] + "," + m_values(m)[0] + "," + m_indices(m)[1] + "," + m_values(m)[1] + "," + sizeof(m));
gives: "1,3,0,4,2"

=== mapping_keeps_the_order_of_its_keys
# The order of keys is that in which they came.
code: mapping m; mixed k, v; m = (["b": 1, "a": 2]) + (["b": 3]); foreach (k, v : m) write(k + v);
gives: "b3a2"

=== explode_and_implode
# An empty piece between two commas stays.
code: write(implode(explode("a,b,,c", ","), "|"));
gives: "a|b||c"

=== ranges_and_last_items
# Ranges and items counted from the end.
code: write("abcd"[1..<2] + ({1, 2, 3})[<1] + sizeof(({1, 2, 1}) - ({1})));
gives: "bc31"

=== printf_with_forms
# Forms of `printf`: to the left, with zeros, in hexadecimal, and any value.
code: printf("%-5s|%05d|%x|%O\n", "ab", -42, 255, ({1, "x"}));
gives: "ab   |-0042|ff|({ 1, \"x\" })\n"

=== sscanf_with_forms
# Forms of `sscanf`: words and a number.
code: string a, b; int n; write(sscanf("give 3 coins", "%s %d %s", a, n, b) + a + n + b);
gives: "3give3coins"

=== names_time_and_users
# The name of the master, the moment, and the one connection.
code: write(object_name(this_object()) + time() + sizeof(users()));
gives: "/secure/master01"

=== who_is_asked_at_logon
# At `logon` the object is the player; nobody called it.
code: write((this_player() == this_object()) + "," + (previous_object() == 0));
gives: "1,1"

=== call_out_found_and_removed
# How long a call-out waits, also when it is taken back, and -1 for none.
code: call_out("logon", 10); write(find_call_out("logon") + "," + remove_call_out("logon") + "," + remove_call_out("logon"));
gives: "10,10,-1"
