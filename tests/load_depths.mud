# Loads that lead to loads: how many of them may.
--- /secure/master.c
object connect() { return this_object(); }
int valid_write(string path) { return 1; }
mixed load(string s) { mixed e; e = catch(load_object(s)); return e ? e : s + "\n"; }
string lives(string s) { return s + (find_object(s) ? " lives\n" : " does not\n"); }
// Each file below the last inherits the one with the next number; the last has a function of the lowest and of a middle one.
void heirs(int last) {
  int n;
  for (n = 0; n < last; n++)
    write_file("/n" + n + ".c", "int own" + n + "();\ninherit \"/n" + (n + 1) + "\";\nint own" + n + "() { return " + n + "; }\n");
  write_file("/n" + last + ".c", "int own0(); int own9();\nint v() { return own0() * 100 + own9(); }\n");
}
int logon() { @@ return 1; }
--- play
connect 1
end

=== inherits_64_deep
# 64 loads for an `inherit` lead to one another; the lowest of the 65 files calls functions of its heirs, and alone it has none.
code: heirs(64); write(load("/n0") + lives("/n64") + "/n0"->v() + "," + "/n64"->v());
gives: "/n0\n/n64 lives\n9,0"

=== inherits_65_deep
# The fault is that of the file whose `inherit` leads too deep, and none of the files has an object.
code: heirs(65); write(load("/n0") + lives("/n65") + lives("/n64") + lives("/n0"));
--- written
log: "/n64.c line 2: inherits too deep"
to 1: "*Could not load /n64\n/n65 does not\n/n64 does not\n/n0 does not\n"
end

=== what_lives_counts_for_none
# From the second file on it is not too deep, and then the first one has one parent that lives.
code: heirs(65); write(load("/n0") + load("/n1") + load("/n0"));
--- written
log: "/n64.c line 2: inherits too deep"
to 1: "*Could not load /n64\n/n1\n/n0\n"
end

=== a_load_by_lpc_begins_a_chain_of_its_own
# 40 files below a file whose `create` loads the first of 40 more: 80 loads are under way, and no chain of inherits is too deep.
code: int n;
code: for (n = 0; n < 40; n++) write_file("/a" + n + ".c", "inherit \"/a" + (n + 1) + "\";\n");
code: write_file("/a40.c", "void create() { if (object_name() == \"/a40\") load_object(\"/b0\"); }\n");
code: for (n = 0; n < 40; n++) write_file("/b" + n + ".c", "inherit \"/b" + (n + 1) + "\";\n");
code: write_file("/b40.c", "int v() { return 40; }\n");
code: write(load("/a0") + lives("/b0") + "/b0"->v());
gives: "/a0\n/b0 lives\n40"

=== calls_are_100_deep_through_loads
# A load is no call, but what begins in it is. The driver itself loads the first file: 100 functions are in one another.
--- /secure/master.c
int valid_write(string path) { return 1; }
void loaders(int last) {
  int n;
  for (n = 1; n < last; n++)
    write_file("/n" + n + ".c", "void create() { load_object(\"/n" + (n + 1) + "\"); }\n");
  write_file("/n" + last + ".c", "void create() { write(\"last\"); }\n");
}
string get_simul_efun() { loaders(100); return "/n1"; }
--- play
end
--- written
log: "last"
end

=== a_call_101_deep_through_loads
# The last file has its object, and its `create` is the call that is too deep. All files before it live too.
--- /secure/master.c
int valid_write(string path) { return 1; }
void loaders(int last) {
  int n;
  for (n = 1; n < last; n++)
    write_file("/n" + n + ".c", "void create() { load_object(\"/n" + (n + 1) + "\"); }\n");
  write_file("/n" + last + ".c", "void create() { write(\"last\"); }\n");
}
string get_simul_efun() { loaders(101); return "/n1"; }
object connect() { return this_object(); }
int logon() { write(sprintf("%O %O", find_object("/n1"), find_object("/n101"))); return 1; }
--- play
connect 1
end
--- written
log: "error: Too deep recursion [create of /n100, object /n100]"
to 1: "/n1 /n101"
end
