#pragma strict_types
inherit "/std/weapon";

void create() {
  set_name("knife");
  set_long("A fisherman's knife.");
  set_value(10);
  set_damage(4);
}
