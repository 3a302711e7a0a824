# The last lines of a replay that is to report: how many objects live, how many of them are out, how many versions are kept, and how
# many of those are out. Each player that comes is told how many have come, by an object that counts them.
words: replay --report
--- /count.c
int n; int one() { return ++n; }
--- /player.c
int logon() { write("/count"->one() + "\n"); return 1; }
--- /secure/master.c
object connect() { return clone_object("/player"); }

=== nobody_came
# Before anybody comes the master lives alone.
--- written
end
report 1 0 1 0

=== counted_by_two_players
# The counter came in for the second player.
--- play
connect 1
swap /count
connect 2
end
--- written
to 1: "1\n"
to 2: "2\n"
end
report 5 0 3 0

=== counter_out_at_the_end
# And is out at the end.
--- play
connect 1
swap /count
connect 2
swap /count
end
--- written
to 1: "1\n"
to 2: "2\n"
end
report 5 1 3 1

=== name_of_nobody_and_out_already
# A name that no object has, and one that is out already.
--- play
connect 1
swap /nobody
swap /count
swap /count
end
--- written
to 1: "1\n"
end
report 4 1 3 1

=== clone_with_its_version
# A clone has its version with the others.
--- play
connect 1
connect 2
swap /player#1
end
--- written
to 1: "1\n"
to 2: "2\n"
end
report 5 1 3 1

=== never_idle
# With the swap time 0 nothing is idle.
words: replay --report --swap-time=0
--- play
connect 1
tick 1000
end
--- written
to 1: "1\n"
end
report 4 0 3 0

=== idle_for_a_second
# With a second all goes out after a tick that comes a second later.
words: replay --swap-time 1 --report
--- play
connect 1
tick 1
end
--- written
to 1: "1\n"
end
report 4 4 3 3

=== wanted_after_a_second
# What is wanted comes in.
words: replay --swap-time 1 --report
--- play
connect 1
tick 1
connect 2
tick 1
end
--- written
to 1: "1\n"
to 2: "2\n"
end
report 5 2 3 0

=== idle_for_less_than_two_seconds
# With two seconds nothing is out after one.
words: replay --report --swap-time 2
--- play
connect 1
tick 1
end
--- written
to 1: "1\n"
end
report 4 0 3 0

=== idle_for_two_seconds
# And all after two.
words: replay --report --swap-time 2
--- play
connect 1
tick 1
tick 2
end
--- written
to 1: "1\n"
end
report 4 4 3 3
