// Something to wield.

#pragma strict_types
inherit "/std/thing";

private nosave int damage = 3;

void set_damage(int n) { damage = n; }
int query_damage() { return damage; }
string query_use() { return "wield"; }
