// A rat of the town. It runs from room to room.

#pragma strict_types
inherit "/std/monster";

void create() {
  ::create();
  set_name("rat");
  set_long("A wet grey rat with a torn ear.");
  set_strength(6);
  set_bare_damage(2);
  set_worth(5);
  set_cries(({ "The rat squeaks.\n", "The rat gnaws on a rope.\n" }));
  set_territory("/area/town/");
}
