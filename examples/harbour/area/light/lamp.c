// The lamp room, where the quest ends: fit lens, pour oil, light lamp.

#pragma strict_types
inherit "/std/room";

#define KEEPER_ROOM "/area/light/hall"

private int has_lens;
private int has_oil;
private int is_lit;

int query_is_lit() { return is_lit; }

void create() {
  set_short("The lamp room");
  set_long("Windows all around, and the sea beyond them. In the middle stands the "
           "lamp, on a wheel of iron.");
  add_exit("down", KEEPER_ROOM);
  add_sight(({ "wheel" }), "It turns by a weight on a chain.");
}

string query_sight(string word) {
  if (word != "lamp") return ::query_sight(word);
  if (is_lit) return "It is too bright to look at.";
  return "It is dark. Its lens is " + (has_lens ? "in its place" : "missing")
    + ", and there is " + (has_oil ? "oil" : "no oil") + " in it.";
}

void init() {
  ::init();
  add_action("fit", "fit");
  add_action("pour", "pour");
  add_action("light", "light");
}

private int fail(string text) {
  notify_fail(text);
  return 0;
}

// What the player holds of the file at which the lamp is missing something.
private object held(string s, string path) {
  object thing = s ? find_thing(lower_case(trim(s)), this_player()) : 0;

  return thing && load_name(thing) == path ? thing : 0;
}

static int fit(string s) {
  object lens = held(s, "/obj/lens");

  if (has_lens) return fail("There is a lens in the lamp.\n");
  if (!lens) return fail("Fit what?\n");
  lens->remove();
  has_lens = 1;
  write("You fit the lens into the lamp. It clicks.\n");
  tell_others(this_object(), capitalize(this_player()->called()) + " fits a lens into the lamp.\n", ({ this_player() }));
  return 1;
}

static int pour(string s) {
  object oil = held(s, "/obj/oil");

  if (has_oil) return fail("The lamp is full.\n");
  if (!oil) return fail("Pour what?\n");
  oil->remove();
  has_oil = 1;
  write("You pour the oil into the lamp.\n");
  tell_others(this_object(), capitalize(this_player()->called()) + " pours oil into the lamp.\n", ({ this_player() }));
  return 1;
}

static int light(string s) {
  if (s != "lamp") return fail("Light what?\n");
  if (is_lit) return fail("It shines already.\n");
  if (!has_oil) return fail("There is no oil in it.\n");
  if (!has_lens) return fail("Without its lens it gives no more light than a candle.\n");
  is_lit = 1;
  foreach (object who : users())
    if (who->is_player()) tell_object(who, "A beam of light sweeps over the harbour!\n");
  thank(this_player());
  return 1;
}

// The keeper comes up the stairs, where he is.
private void thank(object who) {
  object keeper = present("keeper", load_object(KEEPER_ROOM));

  if (keeper) keeper->thank(who);
  else who->finish_quest("lit the lamp of the lighthouse", 60);
}

// Each half hour the oil is burnt, and the lens is stolen again.
void reset() {
  ::reset();
  is_lit = 0;
  has_oil = 0;
  has_lens = 0;
}
