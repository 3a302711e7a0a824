# Efuns on files: what the master is asked, and what becomes of its answers; files of any bytes; and files that are written and removed.
--- /player.c
int logon() { return "/world"->arrived(this_object()); }
--- /doc/hello "hello"
--- /room.c
--- /world.c
#define SHOW(e) error = catch(value = e); if (error) write(error); else printf("%O\n", value);
mixed error, value;
object gone;
int arrived(object player) { gone = clone_object("/room"); destruct(gone); @@ return 1; }
--- /answer.c
// What the master answers.
mixed answer(string path) { return 1; }
--- /secure/master.c
void create() { if (this_player()) write("The master is loaded.\n"); }
object connect() { return clone_object("/player"); }
mixed valid_read(mixed a, mixed b, mixed c, mixed d, mixed e) { printf("valid_read(%O, %O, %O, %O, %O): ", a, b, c, d, e); return "/answer"->answer(a); }
mixed valid_write(mixed a, mixed b, mixed c, mixed d, mixed e) { printf("valid_write(%O, %O, %O, %O, %O): ", a, b, c, d, e); return "/answer"->answer(a); }
--- play
connect 1
end

=== read
# The path, 0, the name of the efun and the object that calls it are told to the master.
code: SHOW(read_file("/doc/hello")) SHOW(read_file("/doc/none"))
gives: "valid_read(\"/doc/hello\", 0, \"read_file\", /world, 0): \"hello\"\n"
       "valid_read(\"/doc/none\", 0, \"read_file\", /world, 0): 0\n"

=== sizes
# In bytes, and -1 where there is no file.
code: SHOW(file_size("/doc/hello")) SHOW(file_size("/doc/none"))
gives: "valid_read(\"/doc/hello\", 0, \"file_size\", /world, 0): 5\n"
       "valid_read(\"/doc/none\", 0, \"file_size\", /world, 0): -1\n"

=== any_answer_but_0_allows
# An array, an object, a negative integer.
code: SHOW(read_file("/doc/hello")) SHOW(read_file("/doc/hello")) SHOW(read_file("/doc/hello"))
gives: "valid_read(\"/doc/hello\", 0, \"read_file\", /world, 0): \"hello\"\n"
       "valid_read(\"/doc/hello\", 0, \"read_file\", /world, 0): \"hello\"\n"
       "valid_read(\"/doc/hello\", 0, \"read_file\", /world, 0): \"hello\"\n"
--- /answer.c
int n;
mixed answer(string path) { return ({ ({ }), this_object(), -1 })[n++]; }

=== refused
# With 0, or an object that ended, which is 0.
code: SHOW(read_file("/doc/hello")) SHOW(file_size("/doc/hello")) SHOW(read_file("/doc/hello"))
gives: "valid_read(\"/doc/hello\", 0, \"read_file\", /world, 0): 0\n"
       "valid_read(\"/doc/hello\", 0, \"file_size\", /world, 0): -1\n"
       "valid_read(\"/doc/hello\", 0, \"read_file\", /world, 0): 0\n"
--- /answer.c
int n;
mixed answer(string path) { object o; if (n++ < 2) return 0; o = clone_object("/room"); destruct(o); return o; }

=== another_path
# A text is the path that counts, also for a file that is not there; one that is no path refuses.
code: SHOW(read_file("/doc/none")) SHOW(file_size("/doc/none")) SHOW(read_file("/doc/hello")) SHOW(read_file("/doc/hello")) SHOW(file_size("/doc/hello"))
gives: "valid_read(\"/doc/none\", 0, \"read_file\", /world, 0): \"hello\"\n"
       "valid_read(\"/doc/none\", 0, \"file_size\", /world, 0): 5\n"
       "valid_read(\"/doc/hello\", 0, \"read_file\", /world, 0): 0\n"
       "valid_read(\"/doc/hello\", 0, \"read_file\", /world, 0): 0\n"
       "valid_read(\"/doc/hello\", 0, \"file_size\", /world, 0): -1\n"
--- /answer.c
int n;
mixed answer(string path) { return ({ "/doc/hello", "/doc/hello", "doc/hello", "", "/doc/../hello" })[n++]; }

=== no_paths
# The master is not asked for what is no path.
code: SHOW(read_file("doc/hello")) SHOW(read_file("/doc/../hello")) SHOW(read_file("")) SHOW(file_size("")) SHOW(file_size("doc/hello"))
code: SHOW(write_file("doc/hello", "a")) SHOW(rm("doc/hello")) SHOW(save_object("doc/m")) SHOW(restore_object("doc/m"))
gives: "0\n0\n0\n-1\n-1\n0\n0\n1\n0\n"

=== no_texts
# A path is a text.
code: SHOW(read_file(1)) SHOW(file_size(gone)) SHOW(write_file(1, "a")) SHOW(write_file("/a", 1)) SHOW(rm(({ }))) SHOW(save_object(1)) SHOW(restore_object(1))
gives: "*Bad argument 1 to read_file\n*Bad argument 1 to file_size\n*Bad argument 1 to write_file\n*Bad argument 2 to write_file\n"
       "*Bad argument 1 to rm\n*Bad argument 1 to save_object\n*Bad argument 1 to restore_object\n"

=== the_master_fails
# The error goes to the caller, and nothing is done.
code: SHOW(({ 1, catch(read_file("/doc/hello")), catch(rm("/doc/hello")), 2 }))
code: SHOW(file_size("/doc/hello"))
gives: "valid_read(\"/doc/hello\", 0, \"read_file\", /world, 0): "
       "valid_write(\"/doc/hello\", 0, \"rm\", /world, 0): ({ 1, \"*ouch\\n\", \"*ouch\\n\", 2 })\n"
       "valid_read(\"/doc/hello\", 0, \"file_size\", /world, 0): 5\n"
--- /answer.c
int n;
mixed answer(string path) { if (n++ < 2) raise_error("ouch"); return 1; }

=== the_master_is_loaded
# Where it is not live it is loaded first, and asked.
code: destruct(find_object("/secure/master")); SHOW(read_file("/doc/hello")) SHOW(read_file("/doc/hello"))
gives: "The master is loaded.\nvalid_read(\"/doc/hello\", 0, \"read_file\", /world, 0): \"hello\"\n"
       "valid_read(\"/doc/hello\", 0, \"read_file\", /world, 0): \"hello\"\n"

=== the_master_ends_as_it_is_loaded
# Then nobody allows it.
code: destruct(find_object("/secure/master")); SHOW(read_file("/doc/hello")) SHOW(file_size("/doc/hello"))
gives: "0\n-1\n"
--- /secure/master.c
void create() { if (this_player()) destruct(this_object()); }
object connect() { return clone_object("/player"); }
int valid_read(string s) { return 1; }

=== the_master_fails_as_it_is_loaded
# The error goes to the caller.
code: destruct(find_object("/secure/master")); SHOW(file_size("/doc/hello"))
gives: "*ouch\n"
--- /secure/master.c
void create() { if (this_player()) raise_error("ouch"); }
object connect() { return clone_object("/player"); }
int valid_read(string s) { return 1; }

=== written
# A text is written behind what is there, or a file is made; an empty text makes one too.
code: SHOW(write_file("/doc/hello", " you")) SHOW(read_file("/doc/hello")) SHOW(write_file("/doc/none", "new")) SHOW(read_file("/doc/none"))
code: SHOW(write_file("/doc/empty", "")) SHOW(file_size("/doc/empty"))
gives: "valid_write(\"/doc/hello\", 0, \"write_file\", /world, 0): 1\n"
       "valid_read(\"/doc/hello\", 0, \"read_file\", /world, 0): \"hello you\"\n"
       "valid_write(\"/doc/none\", 0, \"write_file\", /world, 0): 1\n"
       "valid_read(\"/doc/none\", 0, \"read_file\", /world, 0): \"new\"\n"
       "valid_write(\"/doc/empty\", 0, \"write_file\", /world, 0): 1\n"
       "valid_read(\"/doc/empty\", 0, \"file_size\", /world, 0): 0\n"

=== not_written
# A file that may not be written or removed stays.
code: SHOW(write_file("/doc/hello", " you")) SHOW(rm("/doc/hello")) SHOW(read_file("/doc/hello"))
gives: "valid_write(\"/doc/hello\", 0, \"write_file\", /world, 0): 0\n"
       "valid_write(\"/doc/hello\", 0, \"rm\", /world, 0): 0\n"
       "valid_read(\"/doc/hello\", 0, \"read_file\", /world, 0): \"hello\"\n"
--- /answer.c
int n;
mixed answer(string path) { return n++ >= 2; }

=== removed
# The file is not there any more; of one that was not there nothing else goes.
code: SHOW(rm("/doc/none")) SHOW(file_size("/doc/hello")) SHOW(rm("/doc/hello")) SHOW(file_size("/doc/hello")) SHOW(rm("/doc/hello"))
gives: "valid_write(\"/doc/none\", 0, \"rm\", /world, 0): 0\n"
       "valid_read(\"/doc/hello\", 0, \"file_size\", /world, 0): 5\n"
       "valid_write(\"/doc/hello\", 0, \"rm\", /world, 0): 1\n"
       "valid_read(\"/doc/hello\", 0, \"file_size\", /world, 0): -1\n"
       "valid_write(\"/doc/hello\", 0, \"rm\", /world, 0): 0\n"

=== the_path_of_the_answer
# It is the one that is written, and removed.
code: SHOW(write_file("/doc/none", " you")) SHOW(read_file("/doc/hello")) SHOW(rm("/doc/none")) SHOW(file_size("/doc/hello"))
gives: "valid_write(\"/doc/none\", 0, \"write_file\", /world, 0): 1\n"
       "valid_read(\"/doc/hello\", 0, \"read_file\", /world, 0): \"hello you\"\n"
       "valid_write(\"/doc/none\", 0, \"rm\", /world, 0): 1\n"
       "valid_read(\"/doc/hello\", 0, \"file_size\", /world, 0): -1\n"
--- /answer.c
mixed answer(string path) { return "/doc/hello"; }

=== saved_and_restored
# The path that the master is asked for ends in `.o`, and so does not the one that it answers.
code: SHOW(save_object("/data/m")) SHOW(restore_object("/data/m")) SHOW(file_size("/data/m.o")) SHOW(restore_object("/data/")) SHOW(restore_object("/data/n"))
code: SHOW(save_object("/data/x")) SHOW(file_size("/data/y"))
gives: "valid_write(\"/data/m.o\", 0, \"save_object\", /world, 0): 0\n"
       "valid_read(\"/data/m.o\", 0, \"restore_object\", /world, 0): 1\n"
       "valid_read(\"/data/m.o\", 0, \"file_size\", /world, 0): 28\n"
       "valid_read(\"/data/.o\", 0, \"restore_object\", /world, 0): 0\n"
       "valid_read(\"/data/n.o\", 0, \"restore_object\", /world, 0): 0\n"
       "valid_write(\"/data/x.o\", 0, \"save_object\", /world, 0): 0\n"
       "valid_read(\"/data/y\", 0, \"file_size\", /world, 0): 28\n"
--- /answer.c
mixed answer(string path) { return path == "/data/x.o" ? "/data/y" : 1; }

=== not_saved
# A refusal is 1 for saving and 0 for restoring; nothing is written, also where the answer is no path.
code: SHOW(save_object("/data/m")) SHOW(save_object("/data/m")) SHOW(restore_object("/doc/hello")) SHOW(file_size("/data/m.o"))
gives: "valid_write(\"/data/m.o\", 0, \"save_object\", /world, 0): 1\n"
       "valid_write(\"/data/m.o\", 0, \"save_object\", /world, 0): 1\n"
       "valid_read(\"/doc/hello.o\", 0, \"restore_object\", /world, 0): 0\n"
       "valid_read(\"/data/m.o\", 0, \"file_size\", /world, 0): -1\n"
--- /answer.c
int n;
mixed answer(string path) { return ({ 0, "data/m", 0, 1 })[n++]; }
