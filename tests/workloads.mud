# Scripts of workloads. Nothing is read: the first read fails.
words: make 1 0
reads fail: 1

=== one_event_with_seed_0
# The first event by the generator from the seed 0.
words: make 1 0
--- written
bytes: "mudscript 1 0 0\n"
       "file /obj/box.c 202\n"
       "int *v;\n"
       "void create() { v = ({0, 0}); }\n"
       "int *query() { return v; }\n"
       "void share(object o) { if (random(2)) v = o->query(); }\n"
       "void put(int x) { v[0] = x; v[1]++; }\n"
       "int get() { return v[0] * 1000 + v[1]; }\n"
       "\n"
       "file /secure/master.c 429\n"
       "object *b;\n"
       "object connect() { return this_object(); }\n"
       "int logon() {\n"
       "  int i;\n"
       "  b = allocate(8);\n"
       "  for (i = 0; i < 8; i++) b[i] = clone_object(\"/obj/box\");\n"
       "  for (i = 0; i < 8; i++) b[i]->share(b[(i + 1) % 8]);\n"
       "  enable_commands(); add_action(\"put\", \"put\"); add_action(\"get\", \"get\");\n"
       "  return 1;\n"
       "}\n"
       "int put(string s) { b[random(8)]->put(random(1000)); return 1; }\n"
       "int get(string s) { write(b[random(8)]->get() + \"\\n\"); return 1; }\n"
       "\n"
       "start\n"
       "connect 1\n"
       "swap /obj/box#4\n"
       "end\n"

=== one_event_with_seed_0_byte_by_byte
# The same, where a write takes one byte.
words: make 1 0
write takes: 1
--- written
bytes: "mudscript 1 0 0\n"
       "file /obj/box.c 202\n"
       "int *v;\n"
       "void create() { v = ({0, 0}); }\n"
       "int *query() { return v; }\n"
       "void share(object o) { if (random(2)) v = o->query(); }\n"
       "void put(int x) { v[0] = x; v[1]++; }\n"
       "int get() { return v[0] * 1000 + v[1]; }\n"
       "\n"
       "file /secure/master.c 429\n"
       "object *b;\n"
       "object connect() { return this_object(); }\n"
       "int logon() {\n"
       "  int i;\n"
       "  b = allocate(8);\n"
       "  for (i = 0; i < 8; i++) b[i] = clone_object(\"/obj/box\");\n"
       "  for (i = 0; i < 8; i++) b[i]->share(b[(i + 1) % 8]);\n"
       "  enable_commands(); add_action(\"put\", \"put\"); add_action(\"get\", \"get\");\n"
       "  return 1;\n"
       "}\n"
       "int put(string s) { b[random(8)]->put(random(1000)); return 1; }\n"
       "int get(string s) { write(b[random(8)]->get() + \"\\n\"); return 1; }\n"
       "\n"
       "start\n"
       "connect 1\n"
       "swap /obj/box#4\n"
       "end\n"

=== one_event_with_seed_7
# Another seed gives another event.
words: make 1 7
--- written
bytes: "mudscript 1 7 0\n"
       "file /obj/box.c 202\n"
       "int *v;\n"
       "void create() { v = ({0, 0}); }\n"
       "int *query() { return v; }\n"
       "void share(object o) { if (random(2)) v = o->query(); }\n"
       "void put(int x) { v[0] = x; v[1]++; }\n"
       "int get() { return v[0] * 1000 + v[1]; }\n"
       "\n"
       "file /secure/master.c 429\n"
       "object *b;\n"
       "object connect() { return this_object(); }\n"
       "int logon() {\n"
       "  int i;\n"
       "  b = allocate(8);\n"
       "  for (i = 0; i < 8; i++) b[i] = clone_object(\"/obj/box\");\n"
       "  for (i = 0; i < 8; i++) b[i]->share(b[(i + 1) % 8]);\n"
       "  enable_commands(); add_action(\"put\", \"put\"); add_action(\"get\", \"get\");\n"
       "  return 1;\n"
       "}\n"
       "int put(string s) { b[random(8)]->put(random(1000)); return 1; }\n"
       "int get(string s) { write(b[random(8)]->get() + \"\\n\"); return 1; }\n"
       "\n"
       "start\n"
       "connect 1\n"
       "swap /obj/box#6\n"
       "end\n"

=== one_event_with_seed_7_byte_by_byte
# The same, where a write takes one byte.
words: make 1 7
write takes: 1
--- written
bytes: "mudscript 1 7 0\n"
       "file /obj/box.c 202\n"
       "int *v;\n"
       "void create() { v = ({0, 0}); }\n"
       "int *query() { return v; }\n"
       "void share(object o) { if (random(2)) v = o->query(); }\n"
       "void put(int x) { v[0] = x; v[1]++; }\n"
       "int get() { return v[0] * 1000 + v[1]; }\n"
       "\n"
       "file /secure/master.c 429\n"
       "object *b;\n"
       "object connect() { return this_object(); }\n"
       "int logon() {\n"
       "  int i;\n"
       "  b = allocate(8);\n"
       "  for (i = 0; i < 8; i++) b[i] = clone_object(\"/obj/box\");\n"
       "  for (i = 0; i < 8; i++) b[i]->share(b[(i + 1) % 8]);\n"
       "  enable_commands(); add_action(\"put\", \"put\"); add_action(\"get\", \"get\");\n"
       "  return 1;\n"
       "}\n"
       "int put(string s) { b[random(8)]->put(random(1000)); return 1; }\n"
       "int get(string s) { write(b[random(8)]->get() + \"\\n\"); return 1; }\n"
       "\n"
       "start\n"
       "connect 1\n"
       "swap /obj/box#6\n"
       "end\n"

=== ten_events
# The first ten events with the seed 7.
words: make 10 7
--- written
bytes: "mudscript 1 7 0\n"
       "file /obj/box.c 202\n"
       "int *v;\n"
       "void create() { v = ({0, 0}); }\n"
       "int *query() { return v; }\n"
       "void share(object o) { if (random(2)) v = o->query(); }\n"
       "void put(int x) { v[0] = x; v[1]++; }\n"
       "int get() { return v[0] * 1000 + v[1]; }\n"
       "\n"
       "file /secure/master.c 429\n"
       "object *b;\n"
       "object connect() { return this_object(); }\n"
       "int logon() {\n"
       "  int i;\n"
       "  b = allocate(8);\n"
       "  for (i = 0; i < 8; i++) b[i] = clone_object(\"/obj/box\");\n"
       "  for (i = 0; i < 8; i++) b[i]->share(b[(i + 1) % 8]);\n"
       "  enable_commands(); add_action(\"put\", \"put\"); add_action(\"get\", \"get\");\n"
       "  return 1;\n"
       "}\n"
       "int put(string s) { b[random(8)]->put(random(1000)); return 1; }\n"
       "int get(string s) { write(b[random(8)]->get() + \"\\n\"); return 1; }\n"
       "\n"
       "start\n"
       "connect 1\n"
       "swap /obj/box#6\n"
       "line 1 3\n"
       "put\n"
       "tick 2\n"
       "swap /obj/box#3\n"
       "tick 6\n"
       "line 1 3\n"
       "get\n"
       "tick 11\n"
       "tick 12\n"
       "line 1 3\n"
       "get\n"
       "line 1 3\n"
       "get\n"
       "end\n"

=== ten_events_byte_by_byte
# The same, where a write takes one byte.
words: make 10 7
write takes: 1
--- written
bytes: "mudscript 1 7 0\n"
       "file /obj/box.c 202\n"
       "int *v;\n"
       "void create() { v = ({0, 0}); }\n"
       "int *query() { return v; }\n"
       "void share(object o) { if (random(2)) v = o->query(); }\n"
       "void put(int x) { v[0] = x; v[1]++; }\n"
       "int get() { return v[0] * 1000 + v[1]; }\n"
       "\n"
       "file /secure/master.c 429\n"
       "object *b;\n"
       "object connect() { return this_object(); }\n"
       "int logon() {\n"
       "  int i;\n"
       "  b = allocate(8);\n"
       "  for (i = 0; i < 8; i++) b[i] = clone_object(\"/obj/box\");\n"
       "  for (i = 0; i < 8; i++) b[i]->share(b[(i + 1) % 8]);\n"
       "  enable_commands(); add_action(\"put\", \"put\"); add_action(\"get\", \"get\");\n"
       "  return 1;\n"
       "}\n"
       "int put(string s) { b[random(8)]->put(random(1000)); return 1; }\n"
       "int get(string s) { write(b[random(8)]->get() + \"\\n\"); return 1; }\n"
       "\n"
       "start\n"
       "connect 1\n"
       "swap /obj/box#6\n"
       "line 1 3\n"
       "put\n"
       "tick 2\n"
       "swap /obj/box#3\n"
       "tick 6\n"
       "line 1 3\n"
       "get\n"
       "tick 11\n"
       "tick 12\n"
       "line 1 3\n"
       "get\n"
       "line 1 3\n"
       "get\n"
       "end\n"

=== greatest_seed
# The greatest seed.
words: make 3 18446744073709551615
--- written
bytes: "mudscript 1 18446744073709551615 0\n"
       "file /obj/box.c 202\n"
       "int *v;\n"
       "void create() { v = ({0, 0}); }\n"
       "int *query() { return v; }\n"
       "void share(object o) { if (random(2)) v = o->query(); }\n"
       "void put(int x) { v[0] = x; v[1]++; }\n"
       "int get() { return v[0] * 1000 + v[1]; }\n"
       "\n"
       "file /secure/master.c 429\n"
       "object *b;\n"
       "object connect() { return this_object(); }\n"
       "int logon() {\n"
       "  int i;\n"
       "  b = allocate(8);\n"
       "  for (i = 0; i < 8; i++) b[i] = clone_object(\"/obj/box\");\n"
       "  for (i = 0; i < 8; i++) b[i]->share(b[(i + 1) % 8]);\n"
       "  enable_commands(); add_action(\"put\", \"put\"); add_action(\"get\", \"get\");\n"
       "  return 1;\n"
       "}\n"
       "int put(string s) { b[random(8)]->put(random(1000)); return 1; }\n"
       "int get(string s) { write(b[random(8)]->get() + \"\\n\"); return 1; }\n"
       "\n"
       "start\n"
       "connect 1\n"
       "line 1 3\n"
       "put\n"
       "line 1 3\n"
       "get\n"
       "line 1 3\n"
       "get\n"
       "end\n"

=== greatest_seed_byte_by_byte
# The same, where a write takes one byte.
words: make 3 18446744073709551615
write takes: 1
--- written
bytes: "mudscript 1 18446744073709551615 0\n"
       "file /obj/box.c 202\n"
       "int *v;\n"
       "void create() { v = ({0, 0}); }\n"
       "int *query() { return v; }\n"
       "void share(object o) { if (random(2)) v = o->query(); }\n"
       "void put(int x) { v[0] = x; v[1]++; }\n"
       "int get() { return v[0] * 1000 + v[1]; }\n"
       "\n"
       "file /secure/master.c 429\n"
       "object *b;\n"
       "object connect() { return this_object(); }\n"
       "int logon() {\n"
       "  int i;\n"
       "  b = allocate(8);\n"
       "  for (i = 0; i < 8; i++) b[i] = clone_object(\"/obj/box\");\n"
       "  for (i = 0; i < 8; i++) b[i]->share(b[(i + 1) % 8]);\n"
       "  enable_commands(); add_action(\"put\", \"put\"); add_action(\"get\", \"get\");\n"
       "  return 1;\n"
       "}\n"
       "int put(string s) { b[random(8)]->put(random(1000)); return 1; }\n"
       "int get(string s) { write(b[random(8)]->get() + \"\\n\"); return 1; }\n"
       "\n"
       "start\n"
       "connect 1\n"
       "line 1 3\n"
       "put\n"
       "line 1 3\n"
       "get\n"
       "line 1 3\n"
       "get\n"
       "end\n"

=== write_takes_nothing
# A write that takes nothing.
status: 6
write takes: 0
--- written

=== first_write_fails
# The first write fails.
status: 6
writes fail: 1
--- written

=== three_bytes_at_a_time
# Three bytes are taken at a time, and the third write fails.
status: 6
writes fail: 3
write takes: 3
--- written
bytes: "mudscr"

=== sixth_write_fails
# The head has five pieces.
status: 6
writes fail: 6
--- written
bytes: "mudscript 1 0 0\n"

=== tenth_write_fails
# A write within a file fails.
status: 6
writes fail: 10
--- written
bytes: "mudscript 1 0 0\n"
       "file /obj/box.c 202"

=== flush_fails
# The flush is the call behind 27 pieces.
status: 6
writes fail: 28
--- written
bytes: "mudscript 1 0 0\n"
       "file /obj/box.c 202\n"
       "int *v;\n"
       "void create() { v = ({0, 0}); }\n"
       "int *query() { return v; }\n"
       "void share(object o) { if (random(2)) v = o->query(); }\n"
       "void put(int x) { v[0] = x; v[1]++; }\n"
       "int get() { return v[0] * 1000 + v[1]; }\n"
       "\n"
       "file /secure/master.c 429\n"
       "object *b;\n"
       "object connect() { return this_object(); }\n"
       "int logon() {\n"
       "  int i;\n"
       "  b = allocate(8);\n"
       "  for (i = 0; i < 8; i++) b[i] = clone_object(\"/obj/box\");\n"
       "  for (i = 0; i < 8; i++) b[i]->share(b[(i + 1) % 8]);\n"
       "  enable_commands(); add_action(\"put\", \"put\"); add_action(\"get\", \"get\");\n"
       "  return 1;\n"
       "}\n"
       "int put(string s) { b[random(8)]->put(random(1000)); return 1; }\n"
       "int get(string s) { write(b[random(8)]->get() + \"\\n\"); return 1; }\n"
       "\n"
       "start\n"
       "connect 1\n"
       "swap /obj/box#4\n"
       "end\n"
