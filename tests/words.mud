# Words that name no command are refused before anything is read or written: the first read and the first write fail, so that one
# that was made would end with another status.
status: 1
reads fail: 1
writes fail: 1
--- written

=== no_command
# Words of which the first names no command.
words:
words: ""
words: chec
words: Check
words: --help
words: "check --simul /s.c"

=== words_behind_a_command
# Words behind a command that it does not take.
words: check x
words: check ""
words: check check
words: check --
words: check -h
words: check --help
words: check --report
words: check -x
words: check -

=== simul_without_a_value
# The option `--simul` without a value, or with one that may be none.
words: check --simul
words: check --simul ""
words: check --simul=
words: check --simul -x
words: check --simul=-x
words: check --simul -
words: check --simul --
words: check --simul --help

=== simul_more_than_once
# More than once.
words: check --simul /s.c --simul /s.c
words: check --simul=/s.c --simul=/t.c
words: check --simul --simul

=== simul_cut
# Cut, or with words that belong to nothing.
words: check --sim /s.c
words: check -simul /s.c
words: check --simul /s.c x
words: check --simul /s.c --

=== another_order
# Words in another order, and the option of another command.
words: --simul /s.c check
words: check x --simul /s.c
words: check --Simul /s.c
words: replay --simul /s.c
words: replay --simul=/s.c
words: replay --fast

=== swap_times
# A swap time that is missing, or no number up to the limit, or stands at another place.
words: replay --swap-time
words: replay --swap-time=
words: replay --swap-time 1000000001
words: replay --swap-time 00
words: replay --swap-time=1 --swap-time=1
words: check --swap-time 1
words: replay 900

=== report
# The option for a report cut, twice, with a value, or of another command.
words: replay --rep
words: replay --report --report
words: replay --report=1
words: replay --report 1
words: replay --report --
words: replay --swap-time --report
words: check --swap-time=1 --report

=== workload_words
# Words of a workload that are missing or too many, or in another order.
words: make
words: make 1
words: make 1 0 0
words: make 1 0 --report
words: make --simul /s.c 1 0
words: 1 make 0
words: "make 1 0"
words: make "1 0"
words: make "" 0
words: make 1 ""
words: make -- 1 0
words: make 1 0 --

=== workload_numbers
# Numbers of a workload that are not spelled as numbers are.
words: make 01 2
words: make 1 00
words: make +1 2
words: make 1 +2
words: make -1 2
words: make 1 -2
words: make 1 -0
words: make " 1" 2
words: make 1x 2
words: make 0x1 2

=== workload_limits
# Numbers of a workload below or above the limits.
words: make 0 0
words: make 200001 0
words: make 4294967297 0
words: make 1 18446744073709551616
words: make 1 36893488147419103232
