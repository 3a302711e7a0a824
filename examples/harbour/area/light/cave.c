#pragma strict_types
inherit "/std/room";

void create() {
  set_short("A cave by the sea");
  set_long("Wet sand, and a smell of weed. The light of the entrance shivers "
           "on the roof. It goes down to a pool.");
  add_exit("west", "/area/light/shore");
  add_exit("down", "/area/light/pool");
  add_sight(({ "sand" }), "There are the prints of large claws in it.");
}
