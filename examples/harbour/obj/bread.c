#pragma strict_types
inherit "/std/food";

void create() {
  set_name("bread");
  set_ids(({ "loaf" }));
  set_short("a loaf of bread");
  set_long("It is still warm.");
  set_value(3);
  set_strength(5);
  set_taste("You eat the bread, and feel better.\n");
}
