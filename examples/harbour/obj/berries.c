#pragma strict_types
inherit "/std/food";

void create() {
  set_name("berries");
  set_ids(({ "berry" }));
  set_short("a handful of berries");
  set_long("Small, blue and sour.");
  set_value(1);
  set_strength(3);
  set_taste("The berries are sour, and do you good.\n");
}
