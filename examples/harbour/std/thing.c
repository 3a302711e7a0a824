// What every thing has, and every living one too: names, a look, a value, and a
// way from one place to another.

#pragma strict_types
#include "/include/config.h"

private string name = "thing";
private nosave string *others = ({ });
private nosave string shown;
private nosave string description = "You see nothing special.";
private nosave int value;
private nosave int is_kept = 1;

void set_name(string s) { name = s; }
void set_ids(string *names) { others = names; }
void set_short(string s) { shown = s; }
void set_long(string s) { description = s; }
void set_value(int coins) { value = coins; }

// Whether a player who leaves the game finds it again on coming back.
void set_kept(int yes) { is_kept = yes; }

string query_name() { return name; }
string called() { return "the " + query_name(); }
string short() { return shown || a(query_name()); }
string long() { return description; }
int query_value() { return value; }
int query_kept() { return is_kept; }
int is_player() { return 0; }

int id(string s) {
  return s == lower_case(name) || member(others, s) >= 0;
}

// How it is used, where it can be: "wield" or "wear", and what is told then.
string query_use() { return 0; }

// Whether it may be picked up; where not, a reason.
string why_fixed() { return 0; }

// Who held it lets go of it first. Answers whether it came there.
int move(object dest) {
  object from = environment();

  if (from) from->let_go(this_object());
  move_object(this_object(), dest);
  return environment() == dest;
}

// A holder's chance to forget what leaves it.
void let_go(object what) { }

void remove() {
  object from = environment();

  if (from) from->let_go(this_object());
  destruct(this_object());
}

// The driver asks each hour: a clone that lies nowhere goes.
int clean_up(int is_blueprint) {
  if (is_blueprint) return 0;
  if (!environment()) this_object()->remove();
  return 1;
}
