// A monster: it wanders, and is killed for coins and experience.

#pragma strict_types
inherit "/std/living";

#define WANDER_SECONDS 20

private nosave object home;
private nosave string territory;      // it wanders in rooms whose names begin so
private nosave int worth = 5;         // experience for whoever kills it
private nosave int coins;
private nosave int damage = 3;
private nosave int is_fierce;         // whether it attacks whoever comes
private nosave string *cries = ({ }); // what it says now and then

void set_home(object room) { home = room; }
void set_strength(int n) { set_most_points(n); set_points(n); }
void set_worth(int n) { worth = n; }
void set_coins(int n) { coins = n; }
void set_bare_damage(int n) { damage = n; }
void set_fierce(int yes) { is_fierce = yes; }
void set_cries(string *texts) { cries = texts; }
int query_bare_damage() { return damage; }

// Blueprints are made too, and stay asleep.
void create() {
  if (!clonep(this_object())) return;
  come_alive();
}

void set_territory(string front) {
  territory = front;
  if (clonep(this_object())) call_out("wander", WANDER_SECONDS + random(WANDER_SECONDS));
}

// The next time is asked for first: an error below ends this time alone.
static void wander() {
  object here = environment();
  string *ways;
  string way;

  call_out("wander", WANDER_SECONDS + random(WANDER_SECONDS));
  if (!here) {                           // its room was reloaded
    if (home) arrive(home, " arrives.\n");
    return;
  }
  if (query_foe()) return;
  if (sizeof(cries) && random(2)) {
    tell_others(here, cries[random(sizeof(cries))], ({ this_object() }));
    return;
  }
  ways = m_indices(here->query_exits());
  if (!sizeof(ways)) return;
  way = ways[random(sizeof(ways))];
  if (strstr(here->query_exits()[way], territory) == 0) walk(way, here->query_exits()[way]);
}

// The driver calls this for each living one that comes where the monster is.
void init() {
  if (is_fierce && this_player()->is_player() && !query_foe()) {
    tell_object(this_player(), capitalize(called()) + " attacks you!\n");
    attack(this_player());
  }
}

// What it held falls down; who killed it gets the coins.
void die(object by) {
  object here = environment();

  tell_others(here, capitalize(called()) + " dies.\n", ({ this_object() }));
  foreach (object thing : all_inventory())
    if (here) thing->move(here);
    else thing->remove();
  if (by && by->is_player()) {
    by->add_experience(worth);
    if (coins) {
      tell_object(by, "You find " + coins + " coins.\n");
      by->add_coins(coins);
    }
  }
  this_object()->died(by);
  remove();
}

// A chance for the files of monsters to do more.
void died(object by) { }
