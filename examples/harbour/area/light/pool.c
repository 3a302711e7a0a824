#pragma strict_types
inherit "/std/room";

void create() {
  set_short("The pool");
  set_long("The cave ends at a pool that is as clear as air. Each tide leaves "
           "something here.");
  add_exit("up", "/area/light/cave");
  add_sight(({ "pool", "water" }), "You see to the ground, and it is deep.");
  add_thing("/npc/crab");
}
