#pragma strict_types
inherit "/std/weapon";

void create() {
  set_name("cutlass");
  set_ids(({ "sword" }));
  set_long("A short broad blade with a basket of brass.");
  set_value(45);
  set_damage(8);
}
