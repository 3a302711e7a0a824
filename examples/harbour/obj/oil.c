#pragma strict_types
inherit "/std/thing";

void create() {
  set_name("oil");
  set_ids(({ "flask", "flask of oil" }));
  set_short("a flask of oil");
  set_long("Whale oil, which burns long and bright.");
  set_value(6);
}
