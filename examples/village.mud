mudscript 1 0 0
file /obj/hood.c 183
int cover(object who) { return shadow(who); }
string query_name() { return "hooded figure"; }
string short() { return "a hooded figure"; }
void uncover() { destruct(this_object()); }

file /obj/lamp.c 449
inherit "/std/thing";
int is_lit;
void create() { set_name("oil lamp"); }
int id(string s) { return s == "lamp" || ::id(s); }
void init() { add_action("rub", "rub"); }
string short() { return ::short() + (is_lit ? " (lit)" : ""); }
int rub(string s) {
  if (!s || present(s) != this_object()) { notify_fail("Rub what?\n"); return 0; }
  is_lit = !is_lit; say(this_player()->short() + " rubs " + short() + ".\n"); write("You rub it.\n"); return 1;
}

file /obj/player.c 3329
inherit "/std/living";
string password;
int visits;
mapping seen = ([ ]);
string short() { return name; }
int logon() { write("Name: "); input_to("named"); return 1; }
void named(string s) {
  s = lower_case(trim(s));
  if (s == "") { write("Name: "); input_to("named"); return; }
  write("Password: "); input_to("entered", 1, s);
}
void entered(string given, string s) {
  if (restore_object("/save/" + s)) {
    if (given != password) { write("Wrong.\n"); note(s + " was refused"); destruct(this_object()); return; }
  } else { set_name(capitalize(s)); password = given; }
  visits++; enable_commands();
  add_action("say_it", "say"); add_action("say_it", "'", 1); add_action("carry", "i"); add_action("get", "get"); add_action("drop", "drop");
  add_action("kill", "kill"); add_action("hide", "hide"); add_action("quit", "quit"); add_action("news", "news"); add_action("recall", "recall");
  write("Welcome, " + name + ", for the " + (visits == 1 ? "first" : visits + ".") + " time.\n");
  note(name + " came"); walk(0, "/room/square");
}
void walk(string way, string place) {
  if (way) say(this_object()->short() + " goes " + way + ".\n");
  move_object(this_object(), place); say(this_object()->short() + " arrives.\n"); seen[place]++; command("look");
}
int say_it(string s) {
  if (query_verb() != "say") s = query_verb()[1..] + (s ? " " + s : "");
  if (!s || s == "") { notify_fail("Say what?\n"); return 0; }
  say(this_object()->short() + (s[<1] == '!' ? " sings: " : " says: ") + s + "\n"); write("Aye.\n"); return 1;
}
int carry(string s) {
  object *all = all_inventory();
  write(sizeof(all) ? "You have " + implode(map(all, "short_of", this_object()), ", ") + ".\n" : "You have nothing.\n"); return 1;
}
string short_of(object o) { return o->short(); }
int get(string s) {
  object o = s ? present(s, environment()) : 0;
  if (!o || living(o)) { notify_fail("You cannot get that.\n"); return 0; }
  move_object(o, this_object()); say(this_object()->short() + " takes " + o->short() + ".\n"); write("Taken.\n"); return 1;
}
int drop(string s) {
  object o = s ? present(s, this_object()) : 0;
  if (!o) { notify_fail("You have no such thing.\n"); return 0; }
  move_object(o, environment()); say(this_object()->short() + " drops " + o->short() + ".\n"); write("Dropped.\n"); return 1;
}
int kill(string s) {
  object o = s ? present(s) : 0;
  if (!o || !living(o) || o == this_object()) { notify_fail("Nobody of that name is here.\n"); return 0; }
  write("You attack " + o->short() + ".\n"); attack(o); return 1;
}
int hide(string s) {
  if (this_object()->short() == name) write(clone_object("/obj/hood")->cover(this_object()) ? "You pull up a hood.\n" : "You cannot.\n");
  else { this_object()->uncover(); write("You take the hood off.\n"); }
  return 1;
}
int news(string s) { write(read_file("/news") || "No news.\n"); return 1; }
int recall(string s) { foreach (string place, int n : seen) write(place + ": " + n + "\n"); return 1; }
void leave(string how) {
  save_object("/save/" + lower_case(name));
  foreach (object o : all_inventory()) move_object(o, environment());
  say(this_object()->short() + " " + how + ".\n"); destruct(this_object());
}
int quit(string s) { write("Bye.\n"); leave("leaves"); return 1; }
void die() { tell_object(this_object(), "You are dead.\n"); leave("is carried away"); }

file /obj/rat.c 458
inherit "/std/living";
void create() { set_name("rat"); enable_commands(); call_out("wander", 15); }
void catch_tell(string s) { if (strstr(s, "sings") >= 0) command("look"); if (strstr(s, "A square") == 0) command("down"); }
void wander() { if (!foe) { command("up") || command("down"); call_out("wander", 15); } }
void walk(string way, string place) { say("The rat runs " + way + ".\n"); move_object(this_object(), place); say("A rat comes running.\n"); }

file /room/cellar.c 255
inherit "/std/room";
void create() { long = "It is damp here."; exits["up"] = "/room/square"; call_out("come", 5); }
void come() { object rat = clone_object("/obj/rat"); move_object(rat, this_object()); tell_room(this_object(), "Something squeaks.\n"); }

file /room/square.c 190
inherit "/std/room";
void create() {
  object lamp = clone_object("/obj/lamp");
  long = "A square with a well."; exits = ([ "down": "/room/cellar" ]);
  move_object(lamp, this_object());
}

file /secure/master.c 728
object connect() { return clone_object("/obj/player"); }
string get_simul_efun() { return "/secure/simul"; }
string *epilog(int x) { return ({ "/room/square", "/room/cellar" }); }
void preload(string path) { load_object(path); }
int is_save(string path, object who) { return path[0..5] == "/save/" && who && load_name(who) == "/obj/player"; }
mixed valid_read(string path, int z, string fun, object who) { return fun == "read_file" ? "/log" + path : is_save(path, who); }
mixed valid_write(string path, int z, string fun, object who) { return fun == "write_file" ? "/log" + path : is_save(path, who); }
int query_allow_shadow(object who) { return living(who); }
void disconnect(object who, string s) { who->leave("vanishes"); }

file /secure/simul.c 157
string a(string noun) { return (member("aeiou", noun[0]) < 0 ? "a " : "an ") + noun; }
void note(string s) { write_file("/news", time() + " " + s + "\n"); }

file /std/living.c 657
inherit "/std/thing";
nosave int hp = 8;
nosave object foe;
void die() { destruct(this_object()); }
void attack(object who) { foe = who; set_heart_beat(1); }
int hit(int n, object by) {
  hp -= n;
  if (hp > 0 && !foe) attack(by);
  return hp;
}
void heart_beat() {
  int n;
  if (!foe || environment(foe) != environment()) { foe = 0; set_heart_beat(0); return; }
  n = random(4);
  tell_room(environment(), this_object()->short() + (n ? " hits " : " misses ") + foe->short() + ".\n");
  if (n && foe->hit(n, this_object()) <= 0) {
    tell_room(environment(), foe->short() + " dies.\n"); note(foe->short() + " was killed by " + short()); foe->die();
  }
}

file /std/room.c 540
string long = "A room.";
mapping exits = ([ ]);
void init() {
  add_action("look", "look");
  foreach (string way : exits) add_action("go", way);
}
int look(string s) {
  if (s) { notify_fail("You look for " + s + " in vain.\n"); return 0; }
  write(long + (sizeof(exits) ? " Ways lead " + implode(m_indices(exits), ", ") + "." : "") + "\n");
  foreach (object o : all_inventory()) if (o != this_player()) write("  " + o->short() + "\n");
  return 1;
}
int go(string s) { this_player()->walk(query_verb(), exits[query_verb()]); return 1; }

file /std/thing.c 207
string name = "thing";
string query_name() { return name; }
void set_name(string s) { name = s; }
string short() { return a(this_object()->query_name()); }
int id(string s) { return s == lower_case(name); }

start
connect 1
line 1 0

line 1 4
 BO 
line 1 6
sesame
line 1 4
look
line 1 7
look up
line 1 8
get lamp
line 1 1
i
connect 2
line 2 3
ann
swap /obj/player#2
line 2 3
pea
line 1 14
say Hello, Ann
line 2 9
'hi there
line 2 1
'
line 1 3
rub
line 1 8
rub lamp
tick 5
tick 20
line 2 10
say la la!
line 2 4
down
line 2 4
look
tick 35
line 2 2
up
line 2 4
hide
swap /obj/rat#4
line 1 8
kill rat
tick 36
tick 38
swap /obj/hood#5
tick 40
tick 42
tick 44
tick 46
line 2 7
kill bo
tick 48
tick 50
tick 52
tick 54
tick 56
tick 58
tick 60
line 2 8
get lamp
line 2 12
get oil lamp
reload /room/square.c 107
inherit "/std/room";
void create() { long = "A square with a dry well."; exits["down"] = "/room/cellar"; }

line 2 4
look
line 2 1
i
line 2 4
hide
connect 3
line 3 3
Ann
line 3 3
nut
line 2 9
drop lamp
gone 2
connect 4
line 4 2
bo
line 4 6
sesame
line 4 4
down
line 4 6
recall
swap /room/cellar
line 4 4
quit
connect 5
line 5 2
BO
line 5 6
sesame
line 5 4
news
tick 4000
line 5 4
look
line 5 6
recall
gone 5
end
