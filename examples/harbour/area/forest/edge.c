#pragma strict_types
inherit "/std/room";

void create() {
  set_short("The edge of the forest");
  set_long("The track ends between the first trees. It is quieter here than it "
           "should be.");
  add_exit("east", "/area/town/gate");
  add_exit("west", "/area/forest/glade");
  add_exit("south", "/area/forest/hollow");
  add_sight(({ "trees", "tree" }), "Beeches, and some oaks.");
  add_thing("/obj/berries");
}
