#pragma strict_types
inherit "/std/shop";

void create() {
  set_short("The ship chandler");
  set_long("Shelves up to the ceiling, with all that a ship needs and much that "
           "no ship ever needed. Type list, buy and sell.");
  add_exit("south", "/area/town/square");
  add_sight(({ "shelves", "shelf" }), "Most of it is dust.");
  add_good("/obj/bread");
  add_good("/obj/oil");
  add_good("/obj/knife");
  add_good("/obj/coat");
}
