// The crab that sits on the lens of the lighthouse.

#pragma strict_types
inherit "/std/monster";

void create() {
  ::create();
  set_name("crab");
  set_ids(({ "great crab", "king crab" }));
  set_short("a crab as large as a table");
  set_long("Its claws could snap an oar. Something glitters below it.");
  set_strength(18);
  set_bare_damage(4);
  set_worth(30);
  set_coins(8);
  if (clonep(this_object())) clone_object("/obj/lens")->move(this_object());
}
