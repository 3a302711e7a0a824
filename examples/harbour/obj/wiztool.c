// What makes a wizard: an unseen tool with commands for whoever holds it.
//
// What a wizard types as the name of a file is looked at by plain_name() before it
// is loaded: names of files are plain letters.

#pragma strict_types
#pragma no_inherit
#include "/include/config.h"
inherit "/std/thing";

void create() {
  set_name("wizard's tool");
  set_kept(0);
}

// Nobody sees it, so nobody can take, drop or give it.
string short() { return 0; }

int id(string s) { return s == "wizard's tool"; }

void init() {
  if (environment() != this_player() || !this_player()->is_wizard()) return;
  add_action("do_goto", "goto");
  add_action("do_clone", "clone");
  add_action("do_destroy", "destroy");
  add_action("do_reload", "reload");
  add_action("do_stat", "stat");
  add_action("do_show", "show");
  add_action("do_wizards", "wizards");
}

private int fail(string text) {
  notify_fail(text);
  return 0;
}

// The name of a file that is there, with a / and without .c; or 0 after the reason.
private string name_of(string s) {
  string name;

  if (!s || !plain_name(s)) {
    fail("Name a file, as /area/town/square.\n");
    return 0;
  }
  name = s[0] == '/' ? s : "/" + s;
  if (strlen(name) > 2 && name[<2..] == ".c") name = name[0..<3];
  if (file_size(name + ".c") < 0) {
    fail("There is no file " + name + ".c.\n");
    return 0;
  }
  return name;
}

// The object of a name, loaded where it does not live; or 0 after the reason.
private object loaded(string s) {
  string name = name_of(s), problem;
  object ob;

  if (!name) return 0;
  problem = catch(ob = load_object(name));
  if (problem) fail(name + ": " + problem[1..]);
  return ob;
}

// Who or what is here or held, or a player who is in the game.
private object found(string s) {
  if (!s) return 0;
  s = lower_case(trim(s));
  return find_thing(s, environment(this_player())) || find_thing(s, this_player()) || find_player(s);
}

static int do_goto(string s) {
  object who = this_player(), dest = s ? find_player(lower_case(s)) : 0;

  if (dest) dest = environment(dest);
  else dest = loaded(s);
  if (!dest) return 0;
  if (!dest->query_exits()) return fail("That is no room.\n");
  tell_others(environment(who), capitalize(who->called()) + " vanishes.\n", ({ who }));
  who->stop_fighting();
  who->arrive(dest, " appears.\n");
  who->be_this_player();
  write(dest->short() + "\n" + dest->long());
  return 1;
}

static int do_clone(string s) {
  string name = name_of(s), problem;
  object ob;

  if (!name) return 0;
  problem = catch(ob = clone_object(name));
  if (problem || !ob) return fail(name + ": " + (problem ? problem[1..] : "it is gone.\n"));
  if (living(ob)) ob->arrive(environment(this_player()), " appears.\n");
  else problem = catch(ob->move(this_player()));
  write("You make " + object_name(ob) + ".\n");
  return 1;
}

static int do_destroy(string s) {
  object ob = found(s);

  if (!ob || ob == this_player()) return fail("Destroy what?\n");
  write("You destroy " + object_name(ob) + ".\n");
  ob->remove();
  if (ob) destruct(ob);
  return 1;
}

// A new version of a file, whose text the operator has reloaded, or of one that
// inherits such a file. Who and what is in a room comes into its new version,
// but for what the room makes itself.
static int do_reload(string s) {
  string name = name_of(s), problem;
  object old, new;
  object *inside = ({ }), *made;

  if (!name) return 0;
  if (old = find_object(name)) {
    inside = all_inventory(old);
    made = old->query_made() || ({ });
    foreach (object ob : made)
      if (ob && (environment(ob) == old || living(ob))) ob->remove();
    destruct(old);
  }
  problem = catch(new = load_object(name));
  if (!new) new = load_object(START_ROOM);
  foreach (object ob : inside)
    if (ob && new->query_exits()) move_object(ob, new);
  this_player()->be_this_player();
  if (problem) return fail(name + ": " + problem[1..]);
  write("Reloaded " + name + ".\n");
  return 1;
}

static int do_stat(string s) {
  object ob = s ? found(s) : environment(this_player());

  if (!ob) return fail("Nothing of that name is here.\n");
  printf("%s, of %s\n", object_name(ob), program_name(ob));
  if (ob->query_most_points())
    printf("  hit points %d of %d, damage %d, protection %d\n", ob->query_points(),
           ob->query_most_points(), ob->query_damage(), ob->query_protection());
  if (ob->is_player())
    printf("  coins %d, experience %d, quests %O\n", ob->query_coins(), ob->query_experience(), ob->query_quests());
  printf("  value %d, in %O\n", ob->query_value(), environment(ob));
  foreach (object thing : all_inventory(ob)) printf("  holds %s\n", object_name(thing));
  return 1;
}

// A text of the mudlib: a file with its ending.
static int do_show(string s) {
  string text = s && plain_name(s) ? read_file(s) : 0;

  if (!text) return fail("There is no such text that you may read.\n");
  write(text);
  return 1;
}

static int do_wizards(string s) {
  write("  goto FILE or PLAYER    go there\n"
        "  clone FILE             make one\n"
        "  destroy THING          end it\n"
        "  reload FILE            load it anew; who is in a room stays in it\n"
        "  stat [THING]           numbers of a thing, or of the room\n"
        "  show PATH              a text, as /log/players or /text/welcome\n");
  return 1;
}
