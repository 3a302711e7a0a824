#pragma strict_types
inherit "/std/room";

void create() {
  set_short("The west gate");
  set_long("The gate of the town stands open, for nobody has come to shut it "
           "in years. A cart track leads west into the forest.");
  add_exit("east", "/area/town/square");
  add_exit("west", "/area/forest/edge");
  add_sight(({ "gate" }), "Ivy holds it open.");
  add_sight(({ "track" }), "Few carts have gone there of late.");
  add_thing("/npc/rat");
}
