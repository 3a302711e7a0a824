# Replays of scripts with an item that does not fit, or that are cut: what the events before it wrote stands, and the byte at which
# it begins is told.
status: 2
--- /secure/master.c
object connect() { return this_object(); }
int logon() { write("Hello\n"); return 1; }
--- play
connect 1
line 1: x
end
--- written

=== line_of_nobody
# A line of a connection that never was does not fit; what the events before it wrote stays.
--- play
connect 1
line 2: x
end
--- told
at byte 145 of the script
--- written
to 1: "Hello\n"

=== tick_back
# A tick to a moment that has gone does not fit.
--- play
connect 1
tick 2
tick 1
end
--- told
at byte 152 of the script
--- written
to 1: "Hello\n"

=== script_cut_in_a_line
# The input ends within an item: the fault is that of the item.
cut: 155
--- told
at byte 145 of the script
--- written
to 1: "Hello\n"

=== bytes_behind_the_end
# Bytes behind the end are an item that does not fit, and the end is not written.
--- script
"mudscript 1 0 0\n"
"file /secure/master.c 87\n"
"object connect() { return this_object(); }\n"
"int logon() { write(\"Hello\\n\"); return 1; }\n"
"\n"
"start\n"
"end\n"
"x"
--- told
at byte 139 of the script
