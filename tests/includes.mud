# Included files. The file /t is compiled; its function `t` gives what it has to show, and the master writes it as `%O`
# spells it. Faults of includes stand in faults_of_directives.mud.
--- /secure/master.c
object connect() { return this_object(); }
int logon() { write(sprintf("%O", load_object("/t")->t())); return 1; }
--- play
connect 1
end

=== paths
# A path that begins with a slash is taken as it is, another one beside the including file, and one in angle brackets in
# the folder of headers. A macro of a header is known behind it.
--- /t.c
#include <x.h>
#include "/q/y.h"
#include "q/w.h"
mixed t() { return ({ A, Y, Z, W }); }
--- /sys/x.h
#define A 7
--- /q/y.h
#include "z.h"
#define Y Z + 1
--- /q/z.h
#define Z 5
--- /q/w.h
#define W "/q/w.h"
--- /z.h
#define Z 6
--- written
to 1: "({ 7, 6, 5, \"/q/w.h\" })"
end

=== lines
# A token of an included file has the line of the include in the file that is compiled, also two includes deep. File,
# folder and line are those of that file.
--- /t.c

#include "q/y.h"
mixed t() { return ({ y, line, __LINE__ }) + file; }
--- /q/y.h


#include "z.h"
int line = __LINE__;
--- /q/z.h


int y = __LINE__; mixed *file = ({ __FILE__, __DIR__ });
--- written
to 1: "({ 2, 2, 3, \"/t.c\", \"/\" })"
end

=== one_file_twice
# A file may be included more than once, with other macros.
--- /t.c
#define N a
#include "n.h"
#undef N
#define N b
#include "n.h"
mixed t() { return ({ a(), b() }); }
--- /n.h
int N() { return __LINE__; }
--- written
to 1: "({ 2, 5 })"
end

=== no_sources
# Any file may be included, and it need not end with a line feed.
--- /t.c "#include \"t.o\"\n; } mixed t() { return f(); }"
--- /t.o "int f() { return 4"
--- written
to 1: "4"
end

=== changed_file
# An included file is read when its includer is compiled.
--- /secure/master.c
object connect() { return this_object(); }
int logon() { write(load_object("/t")->t() + "\n"); enable_commands(); add_action("again", "again"); return 1; }
int again(string s) {
  write(load_object("/t")->t() + "\n");
  destruct(load_object("/t"));
  write(load_object("/t")->t() + "\n");
  return 1;
}
--- /t.c
#include "t.h"
int t() { return N; }
--- /t.h
#define N 1
--- play
connect 1
--- reload /t.h
#define N 2
--- play
line 1: again
end
--- written
to 1: "1\n"
to 1: "1\n2\n"
end
