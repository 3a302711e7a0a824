#pragma strict_types
inherit "/std/room";

void create() {
  set_short("A glade");
  set_long("Grass to the knees, and bones in it. Something has made this place "
           "its own.");
  add_exit("east", "/area/forest/edge");
  add_exit("north", "/area/forest/oak");
  add_sight(({ "bones" }), "Sheep, you hope.");
  add_sight(({ "grass" }), "It is trodden down in a ring.");
  add_thing("/npc/wolf");
}
