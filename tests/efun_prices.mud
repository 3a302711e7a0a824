# What efuns cost: 1, and for those with a share a sixteenth of the lengths of their arguments before, and one of the length of their result
# after. A budget is spent where less is left than a call costs.
--- /player.c
int logon() { return 1; }
--- /hall.c
--- /0123456789abcdef0123456789abcdef.c
--- /full.c
void create() { int i; for (i = 0; i < 16; i++) move_object(clone_object("/hall"), this_object()); }
--- /doc "0123456789abcdef0123456789abcdef"
--- /secure/master.c
// What a call costs. Looks into the longest text, which are quick, leave some 75000 of a budget. Then row n makes the call four times, and a loop goes on until
// nothing is left, of which each turn costs four. The turns are told that row 0, which makes no call, has more than row n.
#define COST(n, e) case n: e; e; e; e; break;
int row;
int *left;
object player, hall, full, me, named, gone;
int least, minus;
mixed x;
string name, b15, b16, b30, b31, b32, b10000, b50000, b100000, s32;
string *x1, *x10, *x10000;
int *z8, *z16, *z10000, *n8, *n15, *n16, *n10000;
mapping m16, m32, m10000, d16;
string letters(int n) { string s; s = "bbbbbbbbbb"; while (strlen(s) * 2 <= n) s += s; return s + s[0..n - strlen(s) - 1]; }
int *zeros(int n) { int *a; a = allocate(n); a[n - 1] = 1; return a; }
int *numbers(int n) { int *a; a = allocate(n); while (n--) a[n] = n; return a; }
string *texts(int n) { string *a; a = allocate(n); while (n--) a[n] = "0123456789"; return a; }
void make_texts() {
  b15 = letters(15); b16 = letters(16); b30 = letters(30); b31 = letters(31); b32 = letters(32);
  b10000 = letters(10000); b50000 = letters(50000); b100000 = letters(100000); s32 = letters(31) + " ";
  x1 = ({ "0123456789abcdef" }); x10 = texts(10); x10000 = texts(10000);
}
void make_arrays() {
  z8 = zeros(8); z16 = zeros(16); z10000 = zeros(10000);
  n8 = numbers(8); n15 = numbers(15); n16 = numbers(16); n10000 = numbers(10000);
  m16 = mkmapping(n16, n16); m32 = mkmapping(numbers(32), numbers(32)); m10000 = mkmapping(n10000, n10000);
  gone = clone_object("/hall"); d16 = ([ gone: 0 ]) + mkmapping(n15, n15); destruct(gone);
  least = -9223372036854775807 - 1; minus = -32;
}
object connect() {
  int i;
  if (player) return clone_object("/player");
  me = this_object(); player = clone_object("/player"); hall = load_object("/hall"); full = load_object("/full"); left = allocate(40);
  name = "/0123456789abcdef0123456789abcdef"; named = load_object(name);
  make_texts(); make_arrays();
  for (i = 0; i < 40; i++) call_out("measure", 0, i);
  call_out("tell", 0);
  return player;
}
int valid_read() { return 1; }
void spend() { while (1) left[row]++; }
void measure(int n) {
  int i;
  row = n;
  enable_commands();
  for (i = 0; i < 148; i++) strstr(b100000, "b");
  switch (n) {
  case 0: break;
  @@
  default: return;
  }
  spend();
}
void tell() { for (row = 1; left[row]; row++) tell_object(player, left[0] - left[row] + " "); }
--- play
connect 1
tick 0
end

=== without_a_share
# Questions about kinds, lengths and numbers cost 1, whatever they are asked of.
code: COST(1, clonep(z10000))
code: COST(2, objectp(z10000))
code: COST(3, intp(b100000))
code: COST(4, stringp(b100000))
code: COST(5, pointerp(z10000))
code: COST(6, mappingp(m10000))
code: COST(7, strlen(b100000))
code: COST(8, to_int(b100000))
code: COST(9, sizeof(b100000))
code: COST(10, sizeof(z10000))
code: COST(11, sizeof(m10000))
code: COST(12, min(16, 32))
code: COST(13, max(16, 32))
code: COST(14, abs(minus))
--- written
log: "error: Too long evaluation. Execution aborted. [spend of /secure/master, object /secure/master]"
log: "error: Too long evaluation. Execution aborted. [spend of /secure/master, object /secure/master]"
log: "error: Too long evaluation. Execution aborted. [spend of /secure/master, object /secure/master]"
log: "error: Too long evaluation. Execution aborted. [spend of /secure/master, object /secure/master]"
log: "error: Too long evaluation. Execution aborted. [spend of /secure/master, object /secure/master]"
log: "error: Too long evaluation. Execution aborted. [spend of /secure/master, object /secure/master]"
log: "error: Too long evaluation. Execution aborted. [spend of /secure/master, object /secure/master]"
log: "error: Too long evaluation. Execution aborted. [spend of /secure/master, object /secure/master]"
log: "error: Too long evaluation. Execution aborted. [spend of /secure/master, object /secure/master]"
log: "error: Too long evaluation. Execution aborted. [spend of /secure/master, object /secure/master]"
log: "error: Too long evaluation. Execution aborted. [spend of /secure/master, object /secure/master]"
log: "error: Too long evaluation. Execution aborted. [spend of /secure/master, object /secure/master]"
log: "error: Too long evaluation. Execution aborted. [spend of /secure/master, object /secure/master]"
log: "error: Too long evaluation. Execution aborted. [spend of /secure/master, object /secure/master]"
log: "error: Too long evaluation. Execution aborted. [spend of /secure/master, object /secure/master]"
to 1: "1 1 1 1 1 1 1 1 1 1 1 1 1 1 "
end

=== without_a_share_whatever_the_text
# So do efuns about objects, functions, times, lines and files that are not read, and errors.
code: COST(1, time())
code: COST(2, random(10))
code: COST(3, find_object(b32))
code: COST(4, find_call_out(b32))
code: COST(5, remove_call_out(b32))
code: COST(6, notify_fail(b32))
code: COST(7, function_exists(b32))
code: COST(8, file_size(b32))
code: COST(9, rm(b32))
code: COST(10, m_delete(m16, b16))
code: COST(11, me->none(b32, z10000))
code: COST(12, call_other(me, b32))
code: COST(13, present(b32, hall))
code: COST(14, catch(raise_error(b32)))
code: COST(15, catch(throw(b16)))
code: COST(16, load_object(name))
code: COST(17, call_other(name, "none"))
code: COST(18, strlen(b16))
code: COST(19, to_int(b16))
code: COST(20, sizeof(n16))
--- written
log: "error: Too long evaluation. Execution aborted. [spend of /secure/master, object /secure/master]"
log: "error: Too long evaluation. Execution aborted. [spend of /secure/master, object /secure/master]"
log: "error: Too long evaluation. Execution aborted. [spend of /secure/master, object /secure/master]"
log: "error: Too long evaluation. Execution aborted. [spend of /secure/master, object /secure/master]"
log: "error: Too long evaluation. Execution aborted. [spend of /secure/master, object /secure/master]"
log: "error: Too long evaluation. Execution aborted. [spend of /secure/master, object /secure/master]"
log: "error: Too long evaluation. Execution aborted. [spend of /secure/master, object /secure/master]"
log: "error: Too long evaluation. Execution aborted. [spend of /secure/master, object /secure/master]"
log: "error: Too long evaluation. Execution aborted. [spend of /secure/master, object /secure/master]"
log: "error: Too long evaluation. Execution aborted. [spend of /secure/master, object /secure/master]"
log: "error: Too long evaluation. Execution aborted. [spend of /secure/master, object /secure/master]"
log: "error: Too long evaluation. Execution aborted. [spend of /secure/master, object /secure/master]"
log: "error: Too long evaluation. Execution aborted. [spend of /secure/master, object /secure/master]"
log: "error: Too long evaluation. Execution aborted. [spend of /secure/master, object /secure/master]"
log: "error: Too long evaluation. Execution aborted. [spend of /secure/master, object /secure/master]"
log: "error: Too long evaluation. Execution aborted. [spend of /secure/master, object /secure/master]"
log: "error: Too long evaluation. Execution aborted. [spend of /secure/master, object /secure/master]"
log: "error: Too long evaluation. Execution aborted. [spend of /secure/master, object /secure/master]"
log: "error: Too long evaluation. Execution aborted. [spend of /secure/master, object /secure/master]"
log: "error: Too long evaluation. Execution aborted. [spend of /secure/master, object /secure/master]"
log: "error: Too long evaluation. Execution aborted. [spend of /secure/master, object /secure/master]"
to 1: "1 1 1 1 1 1 1 1 1 1 1 1 1 1 1 1 1 1 1 1 "
end

=== without_a_share_whatever_the_answer
# Nor do names that are answered count, or names of functions, verbs and lines.
code: COST(1, object_name(named))
code: COST(2, load_name(named))
code: COST(3, program_name(named))
code: COST(4, clone_object(name))
code: COST(5, catch(call_out(b32, 5)))
code: COST(6, input_to(b32))
code: COST(7, catch(add_action(b32, b32)))
code: COST(8, command(b32))
code: COST(9, query_shadowing(named))
code: COST(10, exec(named, hall))
--- written
log: "error: Too long evaluation. Execution aborted. [spend of /secure/master, object /secure/master]"
log: "error: Too long evaluation. Execution aborted. [spend of /secure/master, object /secure/master]"
log: "error: Too long evaluation. Execution aborted. [spend of /secure/master, object /secure/master]"
log: "error: Too long evaluation. Execution aborted. [spend of /secure/master, object /secure/master]"
log: "error: Too long evaluation. Execution aborted. [spend of /secure/master, object /secure/master]"
log: "error: Too long evaluation. Execution aborted. [spend of /secure/master, object /secure/master]"
log: "error: Too long evaluation. Execution aborted. [spend of /secure/master, object /secure/master]"
log: "error: Too long evaluation. Execution aborted. [spend of /secure/master, object /secure/master]"
log: "error: Too long evaluation. Execution aborted. [spend of /secure/master, object /secure/master]"
log: "error: Too long evaluation. Execution aborted. [spend of /secure/master, object /secure/master]"
log: "error: Too long evaluation. Execution aborted. [spend of /secure/master, object /secure/master]"
to 1: "1 1 1 1 1 1 1 1 1 1 "
end

=== texts
# Both shares are rounded down, each by itself; texts and arrays count together.
code: COST(1, explode(b15, ""))
code: COST(2, explode(b16, ""))
code: COST(3, explode(b15, "b"))
code: COST(4, explode(b10000, ""))
code: COST(5, explode(b50000, "bbbbbbbbbb"))
code: COST(6, implode(x10, "123456"))
code: COST(7, implode(x10000, ""))
code: COST(8, implode(z10000, ","))
code: COST(9, lower_case(b31))
code: COST(10, lower_case(b100000))
code: COST(11, upper_case(b100000))
code: COST(12, capitalize(b100000))
code: COST(13, strstr(b31, "b", 1000))
code: COST(14, strstr(b50000, b50000))
code: COST(15, trim(s32))
code: COST(16, trim(b100000))
code: COST(17, sprintf("%s%s", b30, b30))
code: COST(18, sprintf("%O", z16))
code: COST(19, sprintf("%9999d", 1))
code: COST(20, to_string(b100000))
code: COST(21, to_string(m32))
code: COST(22, to_string(least))
--- written
log: "error: Too long evaluation. Execution aborted. [spend of /secure/master, object /secure/master]"
log: "error: Too long evaluation. Execution aborted. [spend of /secure/master, object /secure/master]"
log: "error: Too long evaluation. Execution aborted. [spend of /secure/master, object /secure/master]"
log: "error: Too long evaluation. Execution aborted. [spend of /secure/master, object /secure/master]"
log: "error: Too long evaluation. Execution aborted. [spend of /secure/master, object /secure/master]"
log: "error: Too long evaluation. Execution aborted. [spend of /secure/master, object /secure/master]"
log: "error: Too long evaluation. Execution aborted. [spend of /secure/master, object /secure/master]"
log: "error: Too long evaluation. Execution aborted. [spend of /secure/master, object /secure/master]"
log: "error: Too long evaluation. Execution aborted. [spend of /secure/master, object /secure/master]"
log: "error: Too long evaluation. Execution aborted. [spend of /secure/master, object /secure/master]"
log: "error: Too long evaluation. Execution aborted. [spend of /secure/master, object /secure/master]"
log: "error: Too long evaluation. Execution aborted. [spend of /secure/master, object /secure/master]"
log: "error: Too long evaluation. Execution aborted. [spend of /secure/master, object /secure/master]"
log: "error: Too long evaluation. Execution aborted. [spend of /secure/master, object /secure/master]"
log: "error: Too long evaluation. Execution aborted. [spend of /secure/master, object /secure/master]"
log: "error: Too long evaluation. Execution aborted. [spend of /secure/master, object /secure/master]"
log: "error: Too long evaluation. Execution aborted. [spend of /secure/master, object /secure/master]"
log: "error: Too long evaluation. Execution aborted. [spend of /secure/master, object /secure/master]"
log: "error: Too long evaluation. Execution aborted. [spend of /secure/master, object /secure/master]"
log: "error: Too long evaluation. Execution aborted. [spend of /secure/master, object /secure/master]"
log: "error: Too long evaluation. Execution aborted. [spend of /secure/master, object /secure/master]"
log: "error: Too long evaluation. Execution aborted. [spend of /secure/master, object /secure/master]"
log: "error: Too long evaluation. Execution aborted. [spend of /secure/master, object /secure/master]"
to 1: "1 3 3 1251 3438 11 6876 626 3 12501 12501 12501 3 6251 4 12501 8 5 625 12501 3 2 "
end

=== arrays_and_mappings
# Pairs whose key ended do not count.
code: COST(1, allocate(15))
code: COST(2, allocate(16))
code: COST(3, allocate(10000))
code: COST(4, member(z10000, 0))
code: COST(5, member(z8, z8))
code: COST(6, member(m16, 0))
code: COST(7, member(b100000, 98))
code: COST(8, copy(1000))
code: COST(9, copy(gone))
code: COST(10, copy(b32))
code: COST(11, copy(z10000))
code: COST(12, copy(m10000))
code: COST(13, copy(d16))
code: COST(14, m_indices(m16))
code: COST(15, m_indices(m10000))
code: COST(16, m_indices(d16))
code: COST(17, m_values(m10000))
code: COST(18, m_values(d16))
code: COST(19, mkmapping(n8, n8))
code: COST(20, mkmapping(n16, n15))
code: COST(21, mkmapping(z16, z16))
code: COST(22, mkmapping(n10000, z10000))
--- written
log: "error: Too long evaluation. Execution aborted. [spend of /secure/master, object /secure/master]"
log: "error: Too long evaluation. Execution aborted. [spend of /secure/master, object /secure/master]"
log: "error: Too long evaluation. Execution aborted. [spend of /secure/master, object /secure/master]"
log: "error: Too long evaluation. Execution aborted. [spend of /secure/master, object /secure/master]"
log: "error: Too long evaluation. Execution aborted. [spend of /secure/master, object /secure/master]"
log: "error: Too long evaluation. Execution aborted. [spend of /secure/master, object /secure/master]"
log: "error: Too long evaluation. Execution aborted. [spend of /secure/master, object /secure/master]"
log: "error: Too long evaluation. Execution aborted. [spend of /secure/master, object /secure/master]"
log: "error: Too long evaluation. Execution aborted. [spend of /secure/master, object /secure/master]"
log: "error: Too long evaluation. Execution aborted. [spend of /secure/master, object /secure/master]"
log: "error: Too long evaluation. Execution aborted. [spend of /secure/master, object /secure/master]"
log: "error: Too long evaluation. Execution aborted. [spend of /secure/master, object /secure/master]"
log: "error: Too long evaluation. Execution aborted. [spend of /secure/master, object /secure/master]"
log: "error: Too long evaluation. Execution aborted. [spend of /secure/master, object /secure/master]"
log: "error: Too long evaluation. Execution aborted. [spend of /secure/master, object /secure/master]"
log: "error: Too long evaluation. Execution aborted. [spend of /secure/master, object /secure/master]"
log: "error: Too long evaluation. Execution aborted. [spend of /secure/master, object /secure/master]"
log: "error: Too long evaluation. Execution aborted. [spend of /secure/master, object /secure/master]"
log: "error: Too long evaluation. Execution aborted. [spend of /secure/master, object /secure/master]"
log: "error: Too long evaluation. Execution aborted. [spend of /secure/master, object /secure/master]"
log: "error: Too long evaluation. Execution aborted. [spend of /secure/master, object /secure/master]"
log: "error: Too long evaluation. Execution aborted. [spend of /secure/master, object /secure/master]"
log: "error: Too long evaluation. Execution aborted. [spend of /secure/master, object /secure/master]"
to 1: "1 2 626 626 2 2 6251 1 1 5 1251 1251 1 3 1251 1 1251 1 2 2 3 1876 "
end

=== messages
# The text that is told counts, and for `printf` the form and its arguments; nothing is given back.
code: COST(1, write(b32))
code: COST(2, tell_object(hall, b32))
code: COST(3, tell_room(full, b32))
code: COST(4, say(b32))
code: COST(5, printf("%s", b30))
--- written
log: "error: Too long evaluation. Execution aborted. [spend of /secure/master, object /secure/master]"
log: "error: Too long evaluation. Execution aborted. [spend of /secure/master, object /secure/master]"
log: "error: Too long evaluation. Execution aborted. [spend of /secure/master, object /secure/master]"
log: "error: Too long evaluation. Execution aborted. [spend of /secure/master, object /secure/master]"
log: "error: Too long evaluation. Execution aborted. [spend of /secure/master, object /secure/master]"
log: "error: Too long evaluation. Execution aborted. [spend of /secure/master, object /secure/master]"
to 1: "3 3 3 3 3 "
end

=== places
# A list of objects is paid by its length.
code: COST(1, all_inventory(hall))
code: COST(2, all_inventory(full))
code: COST(3, users())
code: COST(4, first_inventory(full))
--- written
log: "error: Too long evaluation. Execution aborted. [spend of /secure/master, object /secure/master]"
log: "error: Too long evaluation. Execution aborted. [spend of /secure/master, object /secure/master]"
log: "error: Too long evaluation. Execution aborted. [spend of /secure/master, object /secure/master]"
log: "error: Too long evaluation. Execution aborted. [spend of /secure/master, object /secure/master]"
log: "error: Too long evaluation. Execution aborted. [spend of /secure/master, object /secure/master]"
to 1: "1 2 1 1 "
end

=== files
# The path counts, the text that is written, and the one that is read; the 1 more is the master's answer.
code: COST(1, read_file(b32))
code: COST(2, read_file("/doc"))
code: COST(3, write_file(b30, b31))
code: COST(4, save_object(b32))
code: COST(5, restore_object(b32))
--- written
log: "error: Too long evaluation. Execution aborted. [spend of /secure/master, object /secure/master]"
log: "error: Too long evaluation. Execution aborted. [spend of /secure/master, object /secure/master]"
log: "error: Too long evaluation. Execution aborted. [spend of /secure/master, object /secure/master]"
log: "error: Too long evaluation. Execution aborted. [spend of /secure/master, object /secure/master]"
log: "error: Too long evaluation. Execution aborted. [spend of /secure/master, object /secure/master]"
log: "error: Too long evaluation. Execution aborted. [spend of /secure/master, object /secure/master]"
to 1: "3 4 4 3 3 "
end

=== items_without_a_function
# `filter` and `map` pay for their array and the name, and `map` for what it gives; a function that is missing costs nothing.
code: COST(1, filter(n16, "none"))
code: COST(2, map(n16, "none"))
--- written
log: "error: Too long evaluation. Execution aborted. [spend of /secure/master, object /secure/master]"
log: "error: Too long evaluation. Execution aborted. [spend of /secure/master, object /secure/master]"
log: "error: Too long evaluation. Execution aborted. [spend of /secure/master, object /secure/master]"
to 1: "2 3 "
end

=== sscanf
# The text and the form count, and not what is assigned.
code: COST(1, sscanf(b30, "%s", x))
code: COST(2, sscanf(b30, "%*s"))
--- written
log: "error: Too long evaluation. Execution aborted. [spend of /secure/master, object /secure/master]"
log: "error: Too long evaluation. Execution aborted. [spend of /secure/master, object /secure/master]"
log: "error: Too long evaluation. Execution aborted. [spend of /secure/master, object /secure/master]"
to 1: "3 3 "
end

=== bad_arguments
# A bad argument is found once the call was paid.
code: COST(1, catch(lower_case(1)))
code: COST(2, catch(explode(b16, 1)))
code: COST(3, catch(implode(z16, 1)))
--- written
log: "error: Too long evaluation. Execution aborted. [spend of /secure/master, object /secure/master]"
log: "error: Too long evaluation. Execution aborted. [spend of /secure/master, object /secure/master]"
log: "error: Too long evaluation. Execution aborted. [spend of /secure/master, object /secure/master]"
log: "error: Too long evaluation. Execution aborted. [spend of /secure/master, object /secure/master]"
to 1: "1 2 2 "
end

=== users
# Of sixteen connections: a sixteenth of the length of the list.
code: COST(1, users())
--- play
connect 1
connect 2
connect 3
connect 4
connect 5
connect 6
connect 7
connect 8
connect 9
connect 10
connect 11
connect 12
connect 13
connect 14
connect 15
connect 16
tick 0
end
--- written
log: "error: Too long evaluation. Execution aborted. [spend of /secure/master, object /secure/master]"
log: "error: Too long evaluation. Execution aborted. [spend of /secure/master, object /secure/master]"
to 1: "2 "
end
