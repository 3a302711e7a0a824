// A gull. Whoever kills it is cursed for a while to cry as it did.

#pragma strict_types
inherit "/std/monster";

void create() {
  ::create();
  set_name("gull");
  set_long("A big white gull that has its eye on your bread.");
  set_strength(4);
  set_bare_damage(1);
  set_worth(3);
  set_cries(({ "The gull cries: Kree!\n", "The gull spreads its wings.\n" }));
  set_territory("/area/town/pier");
}

void died(object by) {
  if (by && by->is_player()) clone_object("/obj/curse")->begin(by);
}
