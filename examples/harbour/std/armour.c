// Something to wear. Of each slot ("head", "body", "feet", "face") one is worn.

#pragma strict_types
inherit "/std/thing";

private nosave string slot = "body";
private nosave int protection = 1;

void set_slot(string s) { slot = s; }
void set_protection(int n) { protection = n; }
string query_slot() { return slot; }
int query_protection() { return protection; }
string query_use() { return "wear"; }

// Called when it was put on and when it was taken off, by whoever wears it.
void worn_by(object who) { }
void taken_off_by(object who) { }
