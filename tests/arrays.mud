# Arrays: made, copied, and looked through.
--- /obj/sword.c
--- /room/hall.c
--- /secure/master.c
// What an expression comes to, or its error; and the same where two objects end once something was set.
#define SHOW(e) error = catch(value = e); if (error) write(error); else printf("%O\n", value);
#define ENDED(set, e) gone = clone_object("/obj/sword"); lost = clone_object("/obj/sword"); set; destruct(gone); destruct(lost); SHOW(e)
mixed error, value, x, y, z;
object hall, sword, gone, lost;
object connect() { hall = load_object("/room/hall"); sword = clone_object("/obj/sword"); return this_object(); }
int logon() { @@ return 1; }
--- play
connect 1
end

=== arrays_of_zeros
# No array is shorter than none or longer than the limit.
code: SHOW(allocate(0))
code: SHOW(allocate(1))
code: SHOW(allocate(-1))
code: SHOW(allocate(-9223372036854775807 - 1))
code: SHOW(allocate(2))
code: SHOW(allocate(10001))
--- written
to 1: "({ })\n"
      "({ 0 })\n"
      "*Bad argument 1 to allocate\n"
      "*Bad argument 1 to allocate\n"
      "({ 0, 0 })\n"
      "*Array too long\n"
end

=== sizes
# What is read as 0 has the size 0; other integers and objects have none.
code: SHOW(sizeof(0))
code: SHOW(sizeof(-1))
code: SHOW(sizeof(({ })))
code: ENDED(x = ({ gone, 1 }), sizeof(x))
code: ENDED(x = gone, sizeof(x))
code: SHOW(sizeof(1))
code: SHOW(sizeof(hall))
code: SHOW(sizeof(({ 1, 2 })))
--- written
to 1: "0\n"
      "*Bad argument 1 to sizeof\n"
      "0\n"
      "2\n"
      "0\n"
      "*Bad argument 1 to sizeof\n"
      "*Bad argument 1 to sizeof\n"
      "2\n"
end

=== first_equal_items
# The place of the first equal item, or -1; an object that ended is 0.
code: SHOW(member(({ }), 0))
code: SHOW(member(({ "a", "b", "a" }), "a"))
code: SHOW(member(({ "a", "b" }), "b"))
code: SHOW(member(({ "a", "b" }), "c"))
code: ENDED(x = ({ 1, gone }), member(x, 0))
code: ENDED(x = ({ 1, gone }); y = lost, member(x, y))
code: SHOW(member(({ "1" }), 1))
--- written
to 1: "-1\n"
      "0\n"
      "1\n"
      "-1\n"
      "1\n"
      "1\n"
      "-1\n"
end

=== copies_as_read
# A copy holds what is read: 0 for an object that ended. An object as such is no array, and is itself.
code: SHOW(copy(({ })))
code: ENDED(x = ({ gone, hall }), copy(x))
code: SHOW(copy(sword))
--- written
to 1: "({ })\n"
      "({ 0, /room/hall })\n"
      "/obj/sword#1\n"
end

=== a_copy_is_another_array
# What is written to the one is not read from the other, in either direction.
code: x = ({ 1, "a" }); y = copy(x); x[0] = 7; printf("%O %O\n", y, x);
code: y[0] = 8; printf("%O %O\n", x, y);
gives: "({ 1, \"a\" }) ({ 7, \"a\" })\n({ 7, \"a\" }) ({ 8, \"a\" })\n"

=== a_copy_holds_the_same_arrays
# The arrays inside are not copied.
code: x = ({ 1, "a" }); y = ({ x }); z = copy(y); x[0] = 9; printf("%O %d\n", z, y == z);
gives: "({ ({ 9, \"a\" }) }) 0\n"
