#pragma strict_types
inherit "/std/armour";

void create() {
  set_name("pelt");
  set_ids(({ "wolf pelt" }));
  set_short("a grey pelt");
  set_long("It keeps the wind off, and some teeth.");
  set_value(24);
  set_slot("body");
  set_protection(2);
}
