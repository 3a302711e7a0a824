# Which calls reach a shadow, and what shadows may not do.

=== calls_go_to_the_shadow
# Calls from other objects go to the shadow; the shadow's own calls go on to the object, and so do those within the object.
--- /secure/master.c
int query_allow_shadow(object o) { return 1; }
object connect() { return this_object(); }
int logon() { write("/w"->on() + "," + "/v"->f() + "," + "/v"->h()); return 1; }
--- /v.c
int f() { return 1; } int h() { return f(); }
--- /w.c
int on() { return shadow(load_object("/v")); } int f() { return 10 + "/v"->f(); }
--- play
connect 1
end
--- written
to 1: "1,11,1"
end

=== without_leave_of_the_master
# Without the master's leave nothing is shadowed.
--- /secure/master.c
object connect() { return this_object(); }
int logon() { write("/w"->on() + "," + "/v"->f() + "," + "/v"->h()); return 1; }
--- /v.c
int f() { return 1; } int h() { return f(); }
--- /w.c
int on() { return shadow(load_object("/v")); } int f() { return 10 + "/v"->f(); }
--- play
connect 1
end
--- written
to 1: "0,1,1"
end

=== shadow_is_not_moved
# A shadow is not moved, until it shadows nobody; and who is somewhere shadows nobody.
--- /room.c
--- /secure/master.c
object connect() { return this_object(); }
int query_allow_shadow(object o) { return 1; }
int logon() {
  write("/w"->on() + "/v"->f() + "\n"); write(catch(move_object(load_object("/w"), "/room")));
  "/w"->off(); move_object(load_object("/w"), "/room"); write(object_name(environment(load_object("/w"))) + "/v"->f() + "/w"->on() + "\n"); return 1;
}
--- /v.c
int f() { return 1; }
--- /w.c
int on() { return shadow(load_object("/v")); }
int off() { return unshadow(); }
int f() { return 2; }
--- play
connect 1
end
--- written
to 1: "3\n"
      "*Shadow cannot move\n"
      "/room10\n"
end
