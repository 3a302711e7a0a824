// A mask to wear. While it is worn, a disguise shadows its wearer.

#pragma strict_types
inherit "/std/armour";

private nosave object disguise;

void create() {
  set_name("mask");
  set_short("a black mask");
  set_long("Whoever wears it is known to nobody.");
  set_value(16);
  set_slot("face");
  set_protection(0);
}

void worn_by(object who) {
  disguise = clone_object("/obj/disguise");
  if (disguise->begin(who)) {
    tell_object(who, "Nobody will know you now.\n");
    return;
  }
  tell_object(who, "It does not hide you.\n");
  destruct(disguise);
}

void taken_off_by(object who) {
  if (disguise) destruct(disguise);
}
