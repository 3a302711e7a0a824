// The lens of the lighthouse. It is of the quest, so it does not leave the game
// in somebody's pockets.

#pragma strict_types
inherit "/std/thing";

void create() {
  set_name("lens");
  set_ids(({ "glass" }));
  set_short("a lens of thick glass");
  set_long("A round lens as broad as your hands, without a scratch.");
  set_value(30);
  set_kept(0);
}
