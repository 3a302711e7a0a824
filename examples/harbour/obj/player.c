// A player. What is saved is: name, hit points, coins, experience, quests, things.

#pragma strict_types
#include "/include/config.h"
inherit "/std/commands";

private int coins = 40;
private int experience;
private mapping quests = ([ ]);       // what was done, to when
private mixed *things = ({ });        // files of what is carried, and whether it is in use
private nosave string last_place;     // the name of the room where this player was last
private nosave int is_leaving;

int is_player() { return 1; }
string account() { return lower_case(query_name()); }
int is_wizard() { return WIZARDS->is_wizard(account()); }

string called() { return query_name(); }
string short() { return query_title() + (interactive() ? "" : ", asleep"); }
string long() { return this_object()->short() + "."; }
int query_coins() { return coins; }
int query_experience() { return experience; }
string *query_quests() { return m_indices(quests); }

string query_title() {
  if (is_wizard()) return query_name() + " the wizard";
  if (experience >= 400) return query_name() + " the captain";
  if (experience >= 150) return query_name() + " the mate";
  if (experience >= 50) return query_name() + " the sailor";
  return query_name() + " the visitor";
}

void add_coins(int n) { coins = max(0, coins + n); }

void add_experience(int n) {
  experience += n;
  set_most_points(20 + min(experience / 25, 40));
}

// ---- Coming and leaving

// The login object has this player's connection given over, and calls this first.
void enter(string name) {
  int is_old = restore_object(PLAYER_SAVE + name);

  if (!is_old) set_name(capitalize(name));
  come_alive();
  add_action("cmd_quit", "quit");
  add_action("cmd_save", "save");
  add_action("cmd_password", "password");
  add_commands();
  add_action("before_command", "", 1);
  set_most_points(20 + min(experience / 25, 40));
  if (query_points() < 1) set_points(1);
  take_things_out();
  if (is_wizard()) clone_object(WIZTOOL)->move(this_object());
  come_alive();
  ACCOUNTS->set_here(name, this_object());
  log_file("players", query_name() + " comes");
  call_out("autosave", SAVE_SECONDS);
  start_beating();
  if (!is_old) write("Welcome to the harbour, " + query_name() + ". Type `help` to see what can be done.\n");
  else write("Welcome back, " + query_name() + ".\n");
  arrive(load_object(START_ROOM), " comes to the harbour.\n");
  show_room();
}

// What was carried at the last time, made anew by its files.
private void take_things_out() {
  foreach (mixed *row : things) {
    object thing;
    string problem = catch(thing = clone_object(row[0]));

    if (problem || !thing) continue;    // its file is gone by now
    thing->move(this_object());
    if (!row[1]) continue;
    if (thing->query_use() == "wield") wield(thing);
    else put_on(thing);
  }
}

private void put_things_in() {
  things = ({ });
  foreach (object thing : all_inventory())
    if (thing->query_kept()) things += ({ ({ load_name(thing), query_uses(thing) }) });
}

int save_me() {
  put_things_in();
  return !save_object(PLAYER_SAVE + account());
}

static void autosave() {
  call_out("autosave", SAVE_SECONDS);
  save_me();
}

static int cmd_save(string s) {
  write(save_me() ? "Saved.\n" : "You could not be saved.\n");
  return 1;
}

static int cmd_quit(string s) {
  if (query_foe()) return fail("Not while you fight!\n");
  write("The sea waits for your return.\n");
  go_away(" leaves the harbour.\n");
  return 1;
}

// Saves this player, and ends all that belongs to it.
private void go_away(string told) {
  if (is_leaving) return;
  is_leaving = 1;
  save_me();
  log_file("players", query_name() + " goes");
  others_see(told);
  foreach (object thing : all_inventory()) thing->remove();
  this_object()->end_curse();
  ACCOUNTS->forget(account());
  destruct(this_object());
}

// Somebody who removes a player does it by this.
void remove() { go_away(" is gone.\n"); }

// The line was cut: the player sleeps for a while, and may be woken by a new login.
void net_dead() {
  others_see(" falls asleep.\n");
  save_me();
  if (find_call_out("sleep_ends") < 0) call_out("sleep_ends", SLEEP_SECONDS);
}

static void sleep_ends() {
  if (!interactive()) go_away(" is carried to bed.\n");
}

void wake_up() {
  remove_call_out("sleep_ends");
  be_this_player();
  others_see(" wakes up.\n");
  write("You wake up.\n");
  find_ground();
  show_room();
}

// ---- Before each command

// A room that is reloaded leaves those who stood in it nowhere. They are put into
// its new version before their next command.
private void find_ground() {
  string problem;

  if (environment()) return;
  problem = last_place ? catch(move_object(this_object(), last_place)) : "none";
  if (!environment()) move_object(this_object(), START_ROOM);
  others_see(" looks about.\n");
}

// This is tried before all other commands of the player, and never ends the search.
static int before_command(string s) {
  find_ground();
  return 0;
}

void arrive(object dest, string told) {
  ::arrive(dest, told);
  last_place = load_name(dest);
}

int walk(string way, string place) {
  object from = environment();

  if (query_foe() && environment(query_foe()) == from && random(2)) {
    write("You try to get away, and fail.\n");
    return 1;
  }
  stop_fighting();
  ::walk(way, place);
  if (environment() != from) show_room();
  return 1;
}

// ---- A new password, in three lines

static int cmd_password(string s) {
  write("The old password: ");
  input_to("old_password", 1);
  return 1;
}

static void old_password(string s) {
  if (!ACCOUNTS->check(account(), s)) {
    write("\nThat is not your password.\n");
    return;
  }
  write("\nThe new password: ");
  input_to("new_password", 1);
}

static void new_password(string s) {
  if (strlen(s) < 5) write("\nA password has at least five letters.\n");
  else write(ACCOUNTS->set_password(account(), s) ? "\nYou have a new password.\n" : "\nIt could not be saved.\n");
}

// ---- Quests and death

int has_done(string quest) { return quests[quest]; }

// A quest, told as "You have ..", done for the first time: 1.
int finish_quest(string quest, int worth) {
  if (quests[quest]) return 0;
  quests[quest] = max(time(), 1);
  tell_object(this_object(), "You have " + quest + "!\n");
  add_experience(worth);
  save_me();
  return 1;
}

void die(object by) {
  int lost = coins / 4;

  stop_fighting();
  tell_object(this_object(), "You die.\n");
  others_see(" dies.\n");
  log_file("players", query_name() + " was killed by " + (by ? by->query_name() : "nobody"));
  add_coins(-lost);
  set_points(max(query_most_points() / 2, 1));
  this_object()->end_curse();
  arrive(load_object(INFIRMARY), " is carried in.\n");
  tell_object(this_object(), "You wake in the chapel of the harbour, "
              + (lost ? lost + " coins lighter.\n" : "sore all over.\n"));
  start_beating();
}
