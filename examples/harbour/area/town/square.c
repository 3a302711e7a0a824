#pragma strict_types
inherit "/std/room";

void create() {
  set_short("The harbour square");
  set_long("Crooked houses of brick stand round a square of wet cobbles. A "
           "well is in its middle, and a board hangs on the wall of the "
           "tavern. The masts of the pier rise in the east.");
  add_exit("east", "/area/town/pier");
  add_exit("west", "/area/town/gate");
  add_exit("north", "/area/town/shop");
  add_exit("south", "/area/town/tavern");
  add_exit("up", "/area/town/chapel");
  add_sight(({ "well" }), "The water is far down, and very black.");
  add_sight(({ "houses", "cobbles" }), "They have seen better years.");
  add_thing("/obj/board");
}
