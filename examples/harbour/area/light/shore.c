#pragma strict_types
inherit "/std/room";

void create() {
  set_short("The shore");
  set_long("Black rocks, weed and the noise of the surf. The lighthouse stands "
           "to the north. Between the rocks in the east a cave opens.");
  add_exit("south", "/area/town/pier");
  add_exit("north", "/area/light/hall");
  add_exit("east", "/area/light/cave");
  add_sight(({ "lighthouse" }), "The tower wants paint.");
  add_sight(({ "rocks", "weed" }), "They are slippery.");
  add_sight(({ "cave" }), "Its floor is wet sand.");
}
