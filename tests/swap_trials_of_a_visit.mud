# A login, a room and the two monsters in it, whose hearts beat. Nothing goes out but by the swap time, over a swap file with troubles:
# a read that fails or lies ends the visit with what the turns before it wrote.
words: replay --swap-time=1
--- /mob.c
void create() { set_heart_beat(1); }
void heart_beat() {
  if (environment()) tell_room(environment(), object_name() + " growls.\n");
}
--- /player.c
string name;
int logon() { write("Name: "); input_to("named"); return 1; }
void named(string s) {
  name = s; enable_commands();
  move_object(this_object(), "/room");
  write("Welcome, " + name + ".\n");
}
--- /room.c
void create() {
  move_object(clone_object("/mob"), this_object());
  move_object(clone_object("/mob"), this_object());
}
void init() { add_action("look", "look"); }
int look(string s) { write("A room.\n"); return 1; }
--- /secure/master.c
object connect() { return clone_object("/player"); }
--- play
connect 1
line 1: Bo
line 1: look
tick 2
line 1: dance
gone 1
end
--- written
to 1: "Name: "
to 1: "Welcome, Bo.\n"
to 1: "A room.\n"
to 1: "/mob#2 growls.\n"
      "/mob#3 growls.\n"
to 1: "What?\n"
end

=== at_each_swap_time
# Nobody can tell.
words: replay
words: replay --swap-time 0
words: replay --swap-time 1
words: replay --swap-time 900

=== read_1_fails
# Once the player is gone, the program of the master comes in, to see whether it has a function that is to be told.
status: 7
swap reads fail: 1
--- written
to 1: "Name: "
to 1: "Welcome, Bo.\n"
to 1: "A room.\n"
to 1: "/mob#2 growls.\n"
      "/mob#3 growls.\n"
to 1: "What?\n"

=== read_1_lies
# Once the player is gone, the program of the master comes in, to see whether it has a function that is to be told.
status: 7
swap reads lie: 1
--- written
to 1: "Name: "
to 1: "Welcome, Bo.\n"
to 1: "A room.\n"
to 1: "/mob#2 growls.\n"
      "/mob#3 growls.\n"
to 1: "What?\n"

=== no_more_reads
# There is no read behind these.
swap reads fail: 2

=== write_1_fails
# What cannot be written stays in memory.
swap writes fail: 1

=== write_2_fails
# What cannot be written stays in memory.
swap writes fail: 2

=== write_3_fails
# What cannot be written stays in memory.
swap writes fail: 3

=== write_4_fails
# What cannot be written stays in memory.
swap writes fail: 4

=== write_5_fails
# What cannot be written stays in memory.
swap writes fail: 5

=== write_6_fails
# What cannot be written stays in memory.
swap writes fail: 6

=== write_7_fails
# What cannot be written stays in memory.
swap writes fail: 7

=== no_write_is_made
# A swap file that takes nothing.
swap writes fail: 1,2,3,4,5,6,7,8,9,10,11,12,13,14,15,16,17,18,19,20,21,22,23,24,25,26,27,28,29,30,31,32,33,34,35,36,37,38,39,40

=== a_byte_at_a_time
# The output takes few bytes at a time.
write takes: 1
