# Two that have one array, of whom one goes out before each line, over a swap file with troubles: a read that fails or lies ends the
# replay with what the turns before it wrote. The record of the object is read, and then its program.
words: replay
--- /a.c
int *v; void take(int *x) { v = x; } void show() { write(v[0] + "\n"); }
--- /b.c
int *v; void make() { v = ({1}); "/a"->take(v); } void put() { v[0] = 7; }
--- /secure/master.c
object connect() { return this_object(); }
int logon() { "/b"->make(); enable_commands(); add_action("go", "go"); return 1; }
int go(string s) { "/b"->put(); "/a"->show(); return 1; }
--- play
connect 1
swap /a
line 1: go
swap /a
line 1: go
end
--- written
to 1: "7\n"
to 1: "7\n"
end

=== at_each_swap_time
# Nobody can tell.
words: replay
words: replay --swap-time 0
words: replay --swap-time 1
words: replay --swap-time 900

=== read_1_fails
# The first line wants the object.
status: 7
swap reads fail: 1
--- written

=== read_1_lies
# The first line wants the object.
status: 7
swap reads lie: 1
--- written

=== read_2_fails
# The first line wants the object.
status: 7
swap reads fail: 2
--- written

=== read_2_lies
# The first line wants the object.
status: 7
swap reads lie: 2
--- written

=== read_3_fails
# The second line wants it.
status: 7
swap reads fail: 3
--- written
to 1: "7\n"

=== read_3_lies
# The second line wants it.
status: 7
swap reads lie: 3
--- written
to 1: "7\n"

=== read_4_fails
# The second line wants it.
status: 7
swap reads fail: 4
--- written
to 1: "7\n"

=== read_4_lies
# The second line wants it.
status: 7
swap reads lie: 4
--- written
to 1: "7\n"

=== no_more_reads
# There is no read behind these.
swap reads fail: 5

=== write_1_fails
# What cannot be written stays in memory.
swap writes fail: 1

=== write_2_fails
# What cannot be written stays in memory.
swap writes fail: 2

=== write_3_fails
# What cannot be written stays in memory.
swap writes fail: 3

=== write_4_fails
# What cannot be written stays in memory.
swap writes fail: 4

=== no_write_is_made
# A swap file that takes nothing.
swap writes fail: 1,2,3,4,5,6,7,8,9,10,11,12,13,14,15,16,17,18,19,20,21,22,23,24,25,26,27,28,29,30,31,32,33,34,35,36,37,38,39,40

=== a_byte_at_a_time
# The output takes few bytes at a time.
write takes: 1
