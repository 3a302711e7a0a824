# The words of `serve`: which are refused, and then nothing is read, polled or written.
status: 1
--- wire
accept 1
line 0: stop
--- written

=== refused
# An option that is missing, comes twice, has no value, an empty one, one that begins with `-`, or one that is no such number; two ports that
# are one; a word too many.
words: serve
words: serve --port 4000 --control 4001
words: serve --lib lib --control 4001
words: serve --lib lib --port 4000
words: serve --lib lib --port 4000 --control 4000
words: serve --lib lib --port 0 --control 4001
words: serve --lib lib --port 65536 --control 4001
words: serve --lib lib --port 04000 --control 4001
words: serve --lib lib --port x --control 4001
words: serve --lib lib --port 4000 --control
words: serve --lib "" --port 4000 --control 4001
words: serve --lib -lib --port 4000 --control 4001
words: serve --lib lib --lib lib --port 4000 --control 4001
words: serve --lib lib --port 4000 --control 4001 --swap-time 1000000001
words: serve --lib lib --port 4000 --control 4001 --seed 18446744073709551616
words: serve --lib lib --port 4000 --control 4001 --turns 18446744073709551616
words: serve --lib lib --port 4000 --control 4001 --turns -1
words: serve --lib lib --port 4000 --control 4001 --record
words: serve --lib lib --port 4000 --control 4001 --record=
words: serve --lib lib --port 4000 --control 4001 --report
words: serve --lib lib --port 4000 --control 4001 more
words: serve --help

=== no_file
# The folder is empty.
words: serve --lib lib --port 4000 --control 4001
status: 3
--- told
/secure/master.c line 0: no such file

=== least_words
# The ports may be 1 and 65535; a master alone, which takes nobody, so who comes is closed.
words: serve --lib lib --port 1 --control 65535
status: 0
--- /secure/master.c
int x;
--- taken
close 1

=== all_words
words: serve --turns=18446744073709551615 --seed=0 --swap-time=1000000000 --control=1 --port=65535 --lib=a=b --record=x
status: 0
--- /secure/master.c
int x;
--- taken
close 1
--- play
connect 1
end
