# Chains of shadows, and who in them has which call.

=== latest_is_outermost
# The latest shadow is the outermost; each one's own call goes on inwards, and what no shadow has is the object's.
--- /secure/master.c
int query_allow_shadow(object o) { return 1; }
object connect() { return this_object(); }
int logon() {
  object v = load_object("/v"), a = clone_object("/w"), b = clone_object("/w"), c = clone_object("/w");
  write(a->on(v) + b->on(v) + c->on(v) + "\n"); write(v->f() + "," + v->g() + "," + v->all() + "\n");
  b->off(); write(v->f() + "," + (query_shadowing(b) == 0) + (query_shadowing(c) == v) + "\n");
  b->on(v); a->end(); write(v->f() + "\n");
  destruct(v); write((query_shadowing(b) == 0) + "," + catch(b->f())); return 1;
}
--- /v.c
string f() { return "v"; }
string g() { return "vg"; }
string all() { return f() + this_object()->f() + this_object()->g(); }
--- /w.c
int on(object o) { return shadow(o); }
void off() { unshadow(); }
void end() { destruct(this_object()); }
string f() { return load_name() + "(" + query_shadowing(this_object())->f() + ")"; }
--- play
connect 1
end
--- written
to 1: "3\n"
      "/w(/w(/w(v))),vg,v/w(/w(/w(v)))vg\n"
      "/w(/w(v)),11\n"
      "/w(/w(v))\n"
      "1,*Bad target\n"
end

=== shadow_ends_in_its_function
# A shadow that ends while its function runs goes on, and no call goes to it any more; so it is with one that stops to shadow.
--- /secure/master.c
int query_allow_shadow(object o) { return 1; }
object connect() { return this_object(); }
int logon() {
  write("/w"->on() + "/x"->on() + "\n"); write("/v"->f() + "\n"); write("/v"->f() + "\n"); write("/v"->f() + (find_object("/w") == 0) + "\n"); return 1;
}
--- /v.c
string f() { return "v"; }
--- /w.c
int on() { return shadow(load_object("/v")); }
string f() { destruct(this_object()); return this_object() + "w" + "/v"->f() + sizeof(all_inventory(load_object("/v"))); }
--- /x.c
int on() { return shadow(load_object("/v")); }
string f() { unshadow(); return "x" + "/v"->f() + query_shadowing(this_object()); }
--- play
connect 1
end
--- written
to 1: "2\n"
      "x0wv00\n"
      "v\n"
      "v1\n"
end

=== call_of_one_that_has_ended
# The call of one that has ended begins at the outermost again.
--- /i.c
int on() { return shadow(load_object("/v")); }
string f() { destruct(this_object()); return "i(" + "/v"->f() + ")"; }
--- /o.c
int on() { return shadow(load_object("/v")); }
string f() { return "o(" + "/v"->f() + ")"; }
--- /secure/master.c
int query_allow_shadow(object o) { return 1; }
object connect() { return this_object(); }
int logon() { write("/i"->on() + "/o"->on() + "\n"); write("/v"->f() + "," + "/v"->f() + "," + (find_object("/i") == 0) + "\n"); return 1; }
--- /v.c
string f() { return "v"; }
--- play
connect 1
end
--- written
to 1: "2\n"
      "o(i(o(v))),o(v),1\n"
end

=== only_callable_functions_hide
# Only what a shadow lets others call hides what lies inside.
--- /secure/master.c
int query_allow_shadow(object o) { return 1; }
object connect() { return this_object(); }
int logon() {
  write("/w"->on()); write("/v"->a() + "/v"->b() + "/v"->c() + "," + "/v"->self() + "," + "/w"->ask() + "," + "/w"->b() + "\n"); return 1;
}
--- /v.c
string a() { return "va"; }
static string b() { return "vb"; }
string c() { return "vc"; }
string self() { return a() + b() + this_object()->a() + this_object()->b() + this_object()->c(); }
--- /w.c
int on() { return shadow(load_object("/v")); }
private string a() { return "wa"; }
string b() { return "wb"; }
static string c() { return "wc"; }
string ask() { object v = load_object("/v"); return v->a() + v->b() + v->c(); }
--- play
connect 1
end
--- written
to 1: "1vawbvc,vavbvawbvc,va0vc,wb\n"
end

=== calls_of_the_driver
# Calls of `init`, `logon` and `catch_tell` go to the outermost shadow that has the function, whatever its modifiers; all others of the driver go to the object.
--- /room.c
--- /secure/master.c
int query_allow_shadow(object o) { return 1; }
object connect() { return find_object("/v") ? load_object("/v") : this_object(); }
int logon() {
  "/v"->live(); "/w"->on(); "/x"->on(); "/y"->live();
  move_object(load_object("/v"), "/room"); move_object(load_object("/y"), "/room"); tell_object(load_object("/v"), "hi"); return 1;
}
--- /v.c
void live() { enable_commands(); set_heart_beat(1); call_out("late", 2); }
void tell(string s) { tell_object(load_object("/secure/master"), s + "\n"); }
int logon() { tell("v logon"); return 1; }
void init() { tell("v init"); }
void catch_tell(string s) { tell("v hears " + s); }
void heart_beat() { tell("v beats"); }
void late() { tell("v late"); }
--- /w.c
int on() { return shadow(load_object("/v")); }
void tell(string s) { tell_object(load_object("/secure/master"), s + "\n"); }
private int logon() { tell("w logon"); return 1; }
static void init() { tell("w init"); }
void heart_beat() { tell("w beats"); }
void late() { tell("w late"); }
--- /x.c
int on() { return shadow(load_object("/v")); }
void tell(string s) { tell_object(load_object("/secure/master"), s + "\n"); }
void catch_tell(string s) { tell("x hears " + s); }
--- /y.c
void live() { enable_commands(); }
--- play
connect 1
tick 2
connect 2
end
--- written
to 1: "w init\n"
      "x hears hi\n"
to 1: "v late\n"
      "v beats\n"
to 1: "w logon\n"
end

=== actions_and_this_object
# Actions are those of who gave them, and `this_object()` in a shadow is the shadow.
--- /lamp.c
void init() { add_action("rub", "rub"); }
int rub(string s) { write("The lamp glows.\n"); return 1; }
--- /secure/master.c
int query_allow_shadow(object o) { return 1; }
object connect() { return this_object(); }
int logon() {
  enable_commands(); "/w"->on(); move_object(load_object("/lamp"), this_object()); "/lamp"->rub(); write("/lamp"->colour() + "\n"); return 1;
}
--- /w.c
int on() { return shadow(load_object("/lamp")); }
int rub(string s) { write(object_name() + " glows.\n"); return 1; }
string colour() { return object_name(this_object()) + object_name(previous_object()); }
--- play
connect 1
line 1: rub
end
--- written
to 1: "/w glows.\n"
      "/w/secure/master\n"
to 1: "The lamp glows.\n"
end
