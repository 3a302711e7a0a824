// Something to eat or drink, once.

#pragma strict_types
inherit "/std/thing";

private nosave int strength = 3;
private nosave string taste = "It tastes good.\n";

void set_strength(int n) { strength = n; }
void set_taste(string s) { taste = s; }

int eaten_by(object who) {
  tell_object(who, taste);
  who->heal(strength);
  remove();
  return 1;
}
