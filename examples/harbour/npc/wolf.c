// A wolf of the forest, which attacks whoever comes.

#pragma strict_types
inherit "/std/monster";

void create() {
  ::create();
  set_name("wolf");
  set_short("a lean grey wolf");
  set_long("It is hungry, and it is looking at you.");
  set_strength(14);
  set_bare_damage(4);
  set_worth(20);
  set_fierce(1);
  set_territory("/area/forest/");
  if (clonep(this_object())) clone_object("/obj/pelt")->move(this_object());
}
