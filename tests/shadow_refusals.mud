# Who may not shadow whom.

=== who_may_shadow_whom
# Who may shadow whom, looked at before the master is asked.
--- /a.c
inherit "/w";
--- /b.c
inherit "/w";
--- /c.c
int begin(object o) { return shadow(o); }
void off() { unshadow(); }
--- /room.c
--- /secure/master.c
int query_allow_shadow(object o) { write("?"); return 1; }
object connect() { return this_object(); }
int logon() {
  object a = load_object("/a"), b = load_object("/b"), c = load_object("/c"), v = load_object("/v");
  write(a->on(a) + "same "); write(a->on(v) + "well "); write(a->on(c) + "shadows already "); write(a->on(v) + "too "); write(b->on(a) + "a shadow ");
  write(c->begin(b) + "well "); write(b->on(v) + "is shadowed "); c->off(); move_object(b, "/room"); write(b->on(v) + "is somewhere "); move_object(v, "/room"); write(c->begin(v) + "well\n"); return 1;
}
--- /v.c
--- /w.c
int on(object o) { return shadow(o); }
--- play
connect 1
end
--- written
to 1: "0same ?1well 0shadows already 0too 0a shadow ?1well 0is shadowed 0is somewhere ?1well\n"
end

=== nomask_pragma_and_master
# A nomask function that the shadow has by name, in whichever way, and the pragma forbid it, and the master's 0 does.
--- /a.c
int on(object o) { return shadow(o); }
private int f() { return 0; }
--- /b.c
inherit "/a";
--- /c.c
int on(object o) { return shadow(o); }
int g() { return 20; }
int f;
--- /k.c
inherit "/n";
--- /n.c
nomask int f() { return 1; }
int g() { return 2; }
--- /p.c
#pragma no_shadow
int h() { return 3; }
--- /secure/master.c
int query_allow_shadow(object o) { write(object_name(o) + "? "); return object_name(o) != "/zero"; }
object connect() { return this_object(); }
int logon() {
  write("/a"->on(load_object("/n")) + " "); write("/a"->on(load_object("/k")) + " "); write("/b"->on(load_object("/n")) + " "); write("/c"->on(load_object("/p")) + " ");
  write("/c"->on(load_object("/zero")) + " "); write("/c"->on(load_object("/k")) + "," + "/k"->g() + "," + "/k"->f() + "\n"); return 1;
}
--- /zero.c
--- play
connect 1
end
--- written
to 1: "0 0 /n? 1 0 /zero? 0 /k? 1,20,1\n"
end

=== what_the_master_does_counts
# What the master does when it is asked counts: who ended, or shadows by then, shadows nobody.
--- /secure/master.c
object asks;
string what;
int query_allow_shadow(object o) {
  string now = what;
  what = "";
  switch (now) {
    case "end it": destruct(o); break;
    case "end who asks": destruct(asks); break;
    case "another": asks->on(load_object("/u")); break;
    case "err": 1 / 0;
  }
  return 1;
}
object connect() { return this_object(); }
string tried(string s) {
  mixed failed, got;
  asks = clone_object("/w"); what = s; failed = catch(got = asks->on(load_object("/v")));
  return failed + "," + got + "," + "/v"->f() + "/u"->f() + "\n";
}
int logon() {
  write(tried("end it")); write(tried("end who asks")); write(tried("another")); write(tried("err")); write(tried("nothing")); return 1;
}
--- /u.c
int f() { return 1; }
--- /v.c
int f() { return 1; }
--- /w.c
int on(object o) { return shadow(o); }
int f() { return 2; }
--- play
connect 1
end
--- written
to 1: "0,0,11\n"
      "0,0,11\n"
      "0,0,12\n"
      "*Division by zero\n"
      ",0,12\n"
      "0,1,22\n"
end

=== dead_one_shadows_nobody
# A dead one shadows nobody, also by an argument that is bad.
--- /secure/master.c
int query_allow_shadow(object o) { return 1; }
object connect() { return this_object(); }
int logon() { write("/w"->go() + "/v"->f() + "\n"); return 1; }
--- /v.c
int f() { return 1; }
--- /w.c
string go() { object v = load_object("/v"); destruct(this_object()); unshadow(); return shadow(v) + catch(shadow(this_object())) + catch(query_shadowing(this_object())); }
int f() { return 2; }
--- play
connect 1
end
--- written
to 1: "0*Bad argument 1 to shadow\n"
      "*Bad argument 1 to query_shadowing\n"
      "1\n"
end
