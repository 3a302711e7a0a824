#pragma strict_types
inherit "/std/room";

void create() {
  set_short("The chapel of the drowned");
  set_long("Names are carved into every stone of this small white room, which "
           "looks over the roofs. Those who died at sea are remembered here, "
           "and those who nearly did wake up here.");
  add_exit("down", "/area/town/square");
  add_sight(({ "names", "stones", "stone" }), "There is room for a few more.");
}
