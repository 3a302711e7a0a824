#pragma strict_types
inherit "/std/room";

void create() {
  set_short("The Drowned Rat");
  set_long("A low room full of smoke. The landlord sleeps behind the bar, and "
           "a fire of driftwood burns blue.");
  add_exit("north", "/area/town/square");
  add_sight(({ "fire" }), "Salt makes it burn blue.");
  add_sight(({ "landlord" }), "He snores.");
  add_sight(({ "bar" }), "It is sticky.");
  add_thing("/npc/rat");
  add_thing("/obj/bread");
}
