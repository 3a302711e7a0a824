# `filter` and `map`, which call LPC for each item.
--- /b.c
int ends(int x) { if (x == 2) destruct(this_object()); return x; }
--- /secure/master.c
object connect() { return this_object(); }
int logon() { @@ return 1; }
mixed *xs;
int keeps(int x) { xs[3] = 9; return x % 2; }
int doubles(int x) { xs[4] = 0; return x * 2; }
int adds(int x, int y, int z) { return x + y + z; }
mixed throws(int x) { if (x == 2) throw("two"); return x; }
--- play
connect 1
end

=== filter_takes_the_items_as_they_stood
# The function changes the array behind its back.
code: xs = ({ 1, 2, 3, 4, 5 }); write(sprintf("%O", filter(xs, "keeps")) + sprintf(" %O", xs));
gives: "({ 1, 3, 5 }) ({ 1, 2, 3, 9, 5 })"

=== map_takes_the_items_as_they_stood
code: xs = ({ 1, 2, 3, 4, 5 }); write(sprintf("%O", map(xs, "doubles")) + sprintf(" %O", xs));
gives: "({ 2, 4, 6, 8, 10 }) ({ 1, 2, 3, 4, 0 })"

=== further_arguments_come_behind_the_item
code: write(sprintf("%O", map(({ 1, 2 }), "adds", this_object(), 10, 100)));
gives: "({ 111, 112 })"

=== a_function_that_is_nowhere_gives_0
code: write(sprintf("%O %O", map(({ 1, 2 }), "none"), filter(({ 1, 2 }), "none")));
gives: "({ 0, 0 }) ({ })"

=== a_throw_ends_it
code: write(catch(map(({ 1, 2, 3 }), "throws")));
gives: "two"

=== an_object_that_ends_at_an_item_is_no_target_for_the_next
code: write(catch(map(({ 1, 2, 3 }), "ends", load_object("/b")))); map(({ 1, 2, 3 }), "ends", load_object("/b"));
--- written
to 1: "*Bad target\n"
log: "error: Bad target [logon of /secure/master, object /secure/master]"
to 1: "Your sensitive mind notices a wrongness in the fabric of space.\n"
close 1
end

=== an_object_that_ends_at_the_last_item
# Nobody is called behind it, and its answer counts.
code: write(sprintf("%O", filter(({ 1, 2 }), "ends", load_object("/b"))));
gives: "({ 1, 2 })"
