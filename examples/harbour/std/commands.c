// What a player can type anywhere. Rooms and things add commands of their own in
// their init().
//
// Each command gets what stands behind its verb, or 0; it answers 1 where it did
// something, and else 0 after notify_fail(), whose text is told then.

#pragma strict_types
#include "/include/config.h"
inherit "/std/living";

// The commands, by their verbs. What is added last is tried first.
void add_commands() {
  add_action("cmd_look", "look");
  add_action("cmd_look", "l");
  add_action("cmd_inventory", "inventory");
  add_action("cmd_inventory", "i");
  add_action("cmd_score", "score");
  add_action("cmd_say", "say");
  add_action("cmd_quote", "'", 1);
  add_action("cmd_tell", "tell");
  add_action("cmd_shout", "shout");
  add_action("cmd_emote", "emote");
  add_action("cmd_who", "who");
  add_action("cmd_get", "get");
  add_action("cmd_get", "take");
  add_action("cmd_drop", "drop");
  add_action("cmd_give", "give");
  add_action("cmd_wield", "wield");
  add_action("cmd_wear", "wear");
  add_action("cmd_remove", "remove");
  add_action("cmd_eat", "eat");
  add_action("cmd_eat", "drink");
  add_action("cmd_kill", "kill");
  add_action("cmd_help", "help");
}

static int fail(string text) {
  notify_fail(text);
  return 0;
}

// What all others here are told; this one is named as shadows will have it.
static void others_see(string text) {
  tell_others(environment(), capitalize(this_object()->called()) + text, ({ this_object() }));
}

// ---- Looking

// Of a crowd the first are named, and the others counted.
static void show_room() {
  object here = environment();
  string text = here->short() + "\n" + here->long() + here->exits_line();
  int n;

  foreach (object ob : all_inventory(here))
    if (ob != this_object() && ob->short() && ++n <= MAX_SHOWN) text += "  " + capitalize(ob->short()) + ".\n";
  if (n > MAX_SHOWN) text += "  And " + (n - MAX_SHOWN) + " more.\n";
  write(text);
}

static int cmd_look(string s) {
  object ob;
  string what, text;

  if (!s) {
    show_room();
    return 1;
  }
  if (sscanf(s, "at %s", what) != 1) what = s;
  what = lower_case(trim(what));
  ob = find_thing(what, this_object()) || find_thing(what, environment());
  text = ob ? ob->long() : environment()->query_sight(what);
  if (!text) return fail("There is no such thing here.\n");
  write(wrap(text, 76));
  if (ob && ob->query_points()) write(looks_of(ob));
  return 1;
}

private string looks_of(object ob) {
  int part = ob->query_points() * 100 / max(ob->query_most_points(), 1);
  string text = capitalize(ob->called());

  if (part >= 100) return text + " is unhurt.\n";
  if (part >= 60) return text + " is scratched.\n";
  if (part >= 30) return text + " is wounded.\n";
  return text + " is close to death.\n";
}

static int cmd_inventory(string s) {
  string text = "";

  foreach (object thing : all_inventory())
    if (thing->short())
      text += "  " + capitalize(thing->short()) + (query_uses(thing) ? " (in use)" : "") + ".\n";
  write(text == "" ? "You carry nothing.\n" : "You carry:\n" + text);
  return 1;
}

static int cmd_score(string s) {
  printf("%s\n", this_object()->short());
  printf("  hit points  %3d of %d\n", query_points(), query_most_points());
  printf("  experience  %3d\n", this_object()->query_experience());
  printf("  coins       %3d\n", this_object()->query_coins());
  foreach (string quest : this_object()->query_quests()) write("  You have " + quest + ".\n");
  return 1;
}

static int cmd_who(string s) {
  string *names = ({ });

  foreach (object who : users())
    if (who->is_player()) names += ({ who->query_title() });
  foreach (string name : sorted(names)) write("  " + name + "\n");
  write(sizeof(names) == 1 ? "You are alone.\n" : sizeof(names) + " players.\n");
  return 1;
}

// A text by its topic. The letters are looked at before a path is made of them.
static int cmd_help(string s) {
  string text, topic = s ? lower_case(trim(s)) : "index";

  if (plain_name(topic) && member(topic, '/') < 0) text = read_file(TEXT + "help/" + topic);
  if (!text) return fail("There is no help on that. `help` lists the topics.\n");
  write(text);
  return 1;
}

// ---- Talking

// A function of its own, which a curse can shadow.
void speak(string text) {
  write("You say: " + text + "\n");
  others_see(" says: " + text + "\n");
}

static int cmd_say(string s) {
  if (!s || trim(s) == "") return fail("Say what?\n");
  this_object()->speak(clean(s));
  return 1;
}

// 'hello is say hello; the verb is the quote and what follows it up to a space.
static int cmd_quote(string s) {
  return cmd_say(query_verb()[1..] + (s ? " " + s : ""));
}

static int cmd_tell(string s) {
  string name, text;
  object who;

  if (!s || sscanf(s, "%s %s", name, text) != 2 || trim(text) == "")
    return fail("Tell whom what?\n");
  who = find_player(lower_case(name));
  if (!who) return fail("There is no such player in the game.\n");
  if (!interactive(who)) return fail("That player is asleep.\n");
  text = clean(text);
  tell_object(who, query_name() + " tells you: " + text + "\n");
  write("You tell " + who->query_name() + ": " + text + "\n");
  return 1;
}

static int cmd_shout(string s) {
  if (!s || trim(s) == "") return fail("Shout what?\n");
  s = clean(s);
  foreach (object who : users())
    if (who->is_player() && who != this_object())
      tell_object(who, capitalize(this_object()->called()) + " shouts: " + s + "\n");
  write("You shout: " + s + "\n");
  return 1;
}

static int cmd_emote(string s) {
  if (!s || trim(s) == "") return fail("Emote what?\n");
  s = clean(s);
  write(query_name() + " " + s + "\n");
  others_see(" " + s + "\n");
  return 1;
}

// ---- Things

int may_carry_more() { return sizeof(all_inventory()) < MAX_CARRIED; }

private int take(object thing) {
  if (living(thing) || !thing->short()) return fail("You cannot take that.\n");
  if (thing->why_fixed()) return fail(thing->why_fixed());
  if (!may_carry_more()) return fail("Your hands are full.\n");
  thing->move(this_object());
  write("You take " + thing->called() + ".\n");
  others_see(" takes " + thing->short() + ".\n");
  return 1;
}

static int cmd_get(string s) {
  object thing;
  int n;

  if (!s) return fail("Take what?\n");
  s = lower_case(trim(s));
  if (s != "all") {
    thing = find_thing(s, environment());
    return thing ? take(thing) : fail("There is no such thing here.\n");
  }
  foreach (object one : all_inventory(environment()))
    if (one && !living(one) && one->short() && !one->why_fixed()) n += take(one);
  return n ? 1 : fail("There is nothing here that you could take.\n");
}

private int put_down(object thing) {
  if (!thing->short()) return fail("You cannot drop that.\n");
  thing->move(environment());
  write("You drop " + thing->called() + ".\n");
  others_see(" drops " + thing->short() + ".\n");
  return 1;
}

static int cmd_drop(string s) {
  object thing;
  int n;

  if (!s) return fail("Drop what?\n");
  s = lower_case(trim(s));
  if (s != "all") {
    thing = find_thing(s, this_object());
    return thing ? put_down(thing) : fail("You have no such thing.\n");
  }
  foreach (object one : all_inventory())
    if (one->short()) n += put_down(one);
  return n ? 1 : fail("You carry nothing.\n");
}

static int cmd_give(string s) {
  string what, whom;
  object thing, who;

  if (!s || sscanf(lower_case(s), "%s to %s", what, whom) != 2) return fail("Give what to whom?\n");
  thing = find_thing(trim(what), this_object());
  if (!thing || !thing->short()) return fail("You have no such thing.\n");
  who = find_thing(trim(whom), environment());
  if (!who || !living(who)) return fail("There is nobody of that name here.\n");
  if (who == this_object()) return fail("You have it already.\n");
  if (who->is_player() && !who->may_carry_more()) return fail("Those hands are full.\n");
  thing->move(who);
  write("You give " + thing->called() + " to " + who->called() + ".\n");
  tell_object(who, capitalize(this_object()->called()) + " gives you " + thing->short() + ".\n");
  tell_others(environment(), capitalize(this_object()->called()) + " gives " + thing->short() + " to "
              + who->called() + ".\n", ({ this_object(), who }));
  who->given(thing, this_object());
  return 1;
}

// The thing of a name that is used by this verb; without one, 0 after the reason.
private object to_use(string s, string verb) {
  object thing = s ? find_thing(lower_case(trim(s)), this_object()) : 0;

  if (!thing) fail("You have no such thing.\n");
  else if (thing->query_use() != verb) {
    fail("You cannot " + verb + " that.\n");
    thing = 0;
  }
  return thing;
}

static int cmd_wield(string s) {
  object thing = to_use(s, "wield");

  if (!thing) return 0;
  wield(thing);
  write("You wield " + thing->called() + ".\n");
  others_see(" wields " + thing->short() + ".\n");
  return 1;
}

static int cmd_wear(string s) {
  object thing = to_use(s, "wear");

  if (!thing) return 0;
  if (query_worn()[thing->query_slot()]) return fail("Something else is in the way.\n");
  write("You put on " + thing->called() + ".\n");
  others_see(" puts on " + thing->short() + ".\n");
  put_on(thing);
  return 1;
}

static int cmd_remove(string s) {
  object thing = s ? find_thing(lower_case(trim(s)), this_object()) : 0;

  if (!thing || !query_uses(thing)) return fail("You use no such thing.\n");
  let_go(thing);
  write("You put away " + thing->called() + ".\n");
  others_see(" puts away " + thing->short() + ".\n");
  return 1;
}

static int cmd_eat(string s) {
  object thing = s ? find_thing(lower_case(trim(s)), this_object()) : 0;

  if (!thing) return fail("You have no such thing.\n");
  if (!function_exists("eaten_by", thing)) return fail("That would not agree with you.\n");
  others_see(" has " + thing->short() + ".\n");
  thing->eaten_by(this_object());
  return 1;
}

// ---- Fighting

static int cmd_kill(string s) {
  object who = s ? find_thing(lower_case(trim(s)), environment()) : 0;

  if (!who || !living(who)) return fail("Kill whom?\n");
  if (who == this_object()) return fail("You think better of it.\n");
  if (who->is_player()) return fail("There is a peace among those who come here.\n");
  if (query_foe() == who) return fail("You are doing that.\n");
  write("You attack " + who->called() + "!\n");
  others_see(" attacks " + who->called() + "!\n");
  attack(who);
  who->provoked_by(this_object());
  return 1;
}
