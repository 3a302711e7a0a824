// A living one: it has hit points, walks, fights and can die.
//
// Other objects' functions are called through this_object()-> where a shadow, such
// as a disguise, may have something else to say: shadows see only such calls.

#pragma strict_types
inherit "/std/thing";

private int points = 20;
private nosave int most = 20;
private nosave object foe;
private nosave object weapon;
private nosave mapping worn = ([ ]);       // slots to what is worn there
private nosave int beats;

void set_points(int n) { points = min(n, most); }
void set_most_points(int n) { most = n; points = min(points, n); }
int query_points() { return points; }
int query_most_points() { return most; }
object query_foe() { return foe; }
object query_weapon() { return weapon; }
mapping query_worn() { return worn; }
int query_bare_damage() { return 2; }

// enable_commands() makes this one this_player() up to the end of the call. Where
// a monster is made while a player's command runs, the player is put back.
void be_this_player() {
  if (living(this_object())) enable_commands();
}

void come_alive() {
  object who = this_player();

  enable_commands();
  if (who && who != this_object()) who->be_this_player();
}

// The beat goes only while there is something to do.
void start_beating() { set_heart_beat(1); }

void heal(int n) {
  points = min(most, points + n);
}

// ---- Going about

int walk(string way, string place) {
  object from = environment(), dest;
  string problem = catch(dest = load_object(place));

  if (problem || !dest) {
    tell_object(this_object(), "That way is blocked for now.\n");
    return 1;
  }
  tell_others(from, capitalize(this_object()->called()) + " goes " + way + ".\n", ({ this_object() }));
  this_object()->arrive(dest, " arrives.\n");
  return 1;
}

void arrive(object dest, string told) {
  move_object(this_object(), dest);
  tell_others(dest, capitalize(this_object()->called()) + told, ({ this_object() }));
}

// ---- Fighting

int query_damage() {
  return weapon ? weapon->query_damage() : this_object()->query_bare_damage();
}

int query_protection() {
  int n;

  foreach (string slot, object armour : worn)
    if (armour) n += armour->query_protection();
  return n;
}

void attack(object who) {
  if (who == this_object()) return;
  foe = who;
  start_beating();
}

void stop_fighting() { foe = 0; }

void heart_beat() {
  if (foe && environment(foe) != environment()) foe = 0;
  if (foe) strike();
  else if (points >= most) set_heart_beat(0);
  else if (++beats % 3 == 0) heal(1);
}

private void strike() {
  object it = foe, place = environment();
  string mine = this_object()->called(), its = it->called();
  int n = random(query_damage() + 1) - random(it->query_protection() + 1);

  if (n <= 0) {
    tell_object(this_object(), "You miss " + its + ".\n");
    tell_object(it, capitalize(mine) + " misses you.\n");
    tell_others(place, capitalize(mine) + " misses " + its + ".\n", ({ this_object(), it }));
    it->provoked_by(this_object());
    return;
  }
  tell_object(this_object(), "You hit " + its + ".\n");
  tell_object(it, capitalize(mine) + " hits you.\n");
  tell_others(place, capitalize(mine) + " hits " + its + ".\n", ({ this_object(), it }));
  it->be_hit(n, this_object());
}

void provoked_by(object who) {
  if (!foe) attack(who);
}

void be_hit(int n, object by) {
  points -= n;
  if (points <= 0) this_object()->die(by);
  else provoked_by(by);
}

void die(object by) {
  remove();
}

// ---- Wielding and wearing

void let_go(object what) {
  if (what == weapon) weapon = 0;
  if (what && what->query_slot() && worn[what->query_slot()] == what) take_off(what);
}

int query_uses(object what) {
  return what && (what == weapon || what->query_slot() && worn[what->query_slot()] == what);
}

void wield(object what) { weapon = what; }

void put_on(object what) {
  worn[what->query_slot()] = what;
  what->worn_by(this_object());
}

void take_off(object what) {
  m_delete(worn, what->query_slot());
  what->taken_off_by(this_object());
}
