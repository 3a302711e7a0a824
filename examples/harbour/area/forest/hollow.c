#pragma strict_types
inherit "/std/room";

void create() {
  set_short("A hollow way");
  set_long("Roots hang down on both sides of a sunken lane, which ends at a "
           "fallen stone.");
  add_exit("north", "/area/forest/edge");
  add_sight(({ "stone" }), "There are letters on it: WHO HIDES IS HIDDEN FROM.");
  add_sight(({ "roots" }), "They feel like hair.");
  add_thing("/obj/mask");
  add_thing("/obj/berries");
}
