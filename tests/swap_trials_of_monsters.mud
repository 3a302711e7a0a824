# What has been idle for a second goes out after the first tick, and one of the monsters after the second, over a swap file with troubles:
# a read that fails or lies ends the replay with what the turns before it wrote.
words: replay --swap-time=1
--- /monster.c
string *places = ({ "the hall", "the yard" });
string kind;
object prey;
int at;

void hunt(string name, object player) {
  kind = name;
  prey = player;
  set_heart_beat(1);
}

void heart_beat() {
  at = 1 - at;
  tell_object(prey, "The " + kind + " goes to " + places[at] + ".\n");
}
--- /player.c
int logon() {
  write("Two monsters are about.\n");
  clone_object("/monster")->hunt("wolf", this_object());
  clone_object("/monster")->hunt("bear", this_object());
  return 1;
}
--- /secure/master.c
object connect() { return clone_object("/player"); }
--- play
connect 1
tick 1
tick 2
swap /monster#2
tick 4
end
--- written
to 1: "Two monsters are about.\n"
to 1: "The wolf goes to the yard.\n"
      "The bear goes to the yard.\n"
to 1: "The wolf goes to the hall.\n"
      "The bear goes to the hall.\n"
end

=== read_1_fails
# The first beats want both monsters and their program.
status: 7
swap reads fail: 1
--- written
to 1: "Two monsters are about.\n"

=== read_1_lies
# The first beats want both monsters and their program.
status: 7
swap reads lie: 1
--- written
to 1: "Two monsters are about.\n"

=== read_2_fails
# The first beats want both monsters and their program.
status: 7
swap reads fail: 2
--- written
to 1: "Two monsters are about.\n"

=== read_2_lies
# The first beats want both monsters and their program.
status: 7
swap reads lie: 2
--- written
to 1: "Two monsters are about.\n"

=== read_3_fails
# The first beats want both monsters and their program.
status: 7
swap reads fail: 3
--- written
to 1: "Two monsters are about.\n"

=== read_3_lies
# The first beats want both monsters and their program.
status: 7
swap reads lie: 3
--- written
to 1: "Two monsters are about.\n"

=== read_4_fails
# The second beat wants the one that was named, and their program, which went out with it.
status: 7
swap reads fail: 4
--- written
to 1: "Two monsters are about.\n"
to 1: "The wolf goes to the yard.\n"
      "The bear goes to the yard.\n"

=== read_4_lies
# The second beat wants the one that was named, and their program, which went out with it.
status: 7
swap reads lie: 4
--- written
to 1: "Two monsters are about.\n"
to 1: "The wolf goes to the yard.\n"
      "The bear goes to the yard.\n"

=== read_5_fails
# The second beat wants the one that was named, and their program, which went out with it.
status: 7
swap reads fail: 5
--- written
to 1: "Two monsters are about.\n"
to 1: "The wolf goes to the yard.\n"
      "The bear goes to the yard.\n"

=== read_5_lies
# The second beat wants the one that was named, and their program, which went out with it.
status: 7
swap reads lie: 5
--- written
to 1: "Two monsters are about.\n"
to 1: "The wolf goes to the yard.\n"
      "The bear goes to the yard.\n"

=== no_more_reads
# There is no read behind these.
swap reads fail: 6

=== write_1_fails
# What cannot be written stays in memory.
swap writes fail: 1

=== write_2_fails
# What cannot be written stays in memory.
swap writes fail: 2

=== write_3_fails
# What cannot be written stays in memory.
swap writes fail: 3

=== write_4_fails
# What cannot be written stays in memory.
swap writes fail: 4

=== write_5_fails
# What cannot be written stays in memory.
swap writes fail: 5

=== write_6_fails
# What cannot be written stays in memory.
swap writes fail: 6

=== write_7_fails
# What cannot be written stays in memory.
swap writes fail: 7

=== write_8_fails
# What cannot be written stays in memory.
swap writes fail: 8

=== write_9_fails
# What cannot be written stays in memory.
swap writes fail: 9

=== write_10_fails
# What cannot be written stays in memory.
swap writes fail: 10

=== write_11_fails
# What cannot be written stays in memory.
swap writes fail: 11

=== no_write_is_made
# A swap file that takes nothing.
swap writes fail: 1,2,3,4,5,6,7,8,9,10,11,12,13,14,15,16,17,18,19,20,21,22,23,24,25,26,27,28,29,30,31,32,33,34,35,36,37,38,39,40

=== a_byte_at_a_time
# The output takes few bytes at a time.
write takes: 1

=== 7_bytes_at_a_time
# The output takes few bytes at a time.
write takes: 7
