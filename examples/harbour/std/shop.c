// A room where things are bought and sold.

#pragma strict_types
inherit "/std/room";

private string *goods = ({ });      // the files of what is sold

void add_good(string path) { goods += ({ path }); }

void init() {
  ::init();
  add_action("list", "list");
  add_action("buy", "buy");
  add_action("sell", "sell");
}

static int list(string s) {
  write("For sale:\n");
  foreach (string path : goods) {
    object good = load_object(path);
    printf("  %-30.30s %4d coins\n", good->short(), good->query_value());
  }
  return 1;
}

// Of each good the blueprint shows the name and the price; a clone is sold.
private object good_of(string s) {
  foreach (string path : goods)
    if (load_object(path)->id(s)) return load_object(path);
  return 0;
}

static int buy(string s) {
  object good, sold, who = this_player();

  if (!s || !(good = good_of(lower_case(s)))) {
    notify_fail("Buy what? `list` shows what is for sale.\n");
    return 0;
  }
  if (who->query_coins() < good->query_value()) {
    notify_fail("You have too few coins.\n");
    return 0;
  }
  if (!who->may_carry_more()) {
    notify_fail("Your hands are full.\n");
    return 0;
  }
  sold = clone_object(load_name(good));
  sold->move(who);
  who->add_coins(-good->query_value());
  write("You buy " + sold->short() + " for " + good->query_value() + " coins.\n");
  tell_others(this_object(), capitalize(who->called()) + " buys " + sold->short() + ".\n", ({ who }));
  return 1;
}

// Half of its value is paid for a thing.
static int sell(string s) {
  object thing, who = this_player();
  int coins;

  if (!s || !(thing = find_thing(lower_case(s), who)) || living(thing)) {
    notify_fail("Sell what?\n");
    return 0;
  }
  coins = thing->query_value() / 2;
  if (coins < 1 || !thing->query_kept()) {
    notify_fail("The shopkeeper does not want that.\n");
    return 0;
  }
  write("You sell " + thing->short() + " for " + coins + " coins.\n");
  tell_others(this_object(), capitalize(who->called()) + " sells " + thing->short() + ".\n", ({ who }));
  who->add_coins(coins);
  thing->remove();
  return 1;
}
