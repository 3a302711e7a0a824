#pragma strict_types
inherit "/std/room";

void create() {
  set_short("The foot of the lighthouse");
  set_long("A round room with a stove, a chair and a great many clocks, of "
           "which each shows another time. Stairs wind up to the lamp room.");
  add_exit("south", "/area/light/shore");
  add_exit("up", "/area/light/lamp");
  add_sight(({ "clocks", "clock" }), "One of them may be right.");
  add_sight(({ "stove" }), "A kettle stands on it.");
  add_thing("/npc/keeper");
}
