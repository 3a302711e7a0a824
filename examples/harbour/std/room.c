// A room: its look, its exits, what there is to be looked at, and what belongs here.

#pragma strict_types
#include "/include/config.h"

private string title = "A room";
private string description = "It is empty.\n";
private mapping exits = ([ ]);      // ways to the names of rooms
private mapping sights = ([ ]);     // words to texts
private string *stock = ({ });      // the files of what belongs here
private object *made = ({ });       // what was made of them, in that order

void set_short(string s) { title = s; }
void set_long(string s) { description = wrap(s, 76); }
void add_exit(string way, string place) { exits[way] = place; }

// A text for each of some words, which `look` tells.
void add_sight(string *words, string text) {
  foreach (string word : words) sights[word] = text;
}

string short() { return title; }
string long() { return description; }
mapping query_exits() { return exits; }
string query_sight(string word) { return sights[word]; }
int id(string s) { return 0; }

// What belongs here and is gone, killed or eaten, is made anew.
private void fill() {
  int i;

  for (i = 0; i < sizeof(stock); i++)
    if (!made[i]) {
      object ob = clone_object(stock[i]);
      made[i] = ob;
      ob->set_home(this_object());
      ob->move(this_object());
    }
}

// A thing or a monster that belongs here, by its file.
void add_thing(string path) {
  stock += ({ path });
  made += ({ 0 });
  fill();
}

object *query_made() { return made; }

// The driver calls this each half hour.
void reset() {
  fill();
}

string exits_line() {
  if (!sizeof(exits)) return "There is no way out.\n";
  return "Ways lead " + list_of(sorted(m_indices(exits))) + ".\n";
}

// Who comes here can go each of the ways.
void init() {
  foreach (string way : exits) add_action("leave", way);
}

static int leave(string s) {
  if (s) {
    notify_fail("One word is enough: " + query_verb() + ".\n");
    return 0;
  }
  return this_player()->walk(query_verb(), exits[query_verb()]);
}
