#pragma strict_types
inherit "/std/armour";

void create() {
  set_name("coat");
  set_ids(({ "oilskin" }));
  set_short("an oilskin coat");
  set_long("It smells of fish, and rain runs off it.");
  set_value(14);
  set_slot("body");
  set_protection(1);
}
