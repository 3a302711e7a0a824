#pragma strict_types
inherit "/std/room";

void create() {
  set_short("The pier");
  set_long("Planks on old piles lead out into the grey water. Nets dry on "
           "racks, and the boats knock against the wood. A path goes north "
           "along the shore to the lighthouse.");
  add_exit("west", "/area/town/square");
  add_exit("north", "/area/light/shore");
  add_sight(({ "nets", "net" }), "They are full of holes.");
  add_sight(({ "boats", "boat", "water" }), "The tide is out, and nobody sails today.");
  add_thing("/npc/gull");
  add_thing("/npc/gull");
}
