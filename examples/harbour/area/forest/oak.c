#pragma strict_types
inherit "/std/room";

void create() {
  set_short("The old oak");
  set_long("An oak that ten people could not reach around. From its foot you "
           "see the tower of the lighthouse, far in the east.");
  add_exit("south", "/area/forest/glade");
  add_sight(({ "oak", "tree" }), "Somebody has carved a ship into its bark.");
  add_sight(({ "tower", "lighthouse" }), "It looks very far away.");
  add_thing("/obj/cutlass");
}
