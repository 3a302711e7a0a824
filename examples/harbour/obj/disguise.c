// A shadow of somebody in a mask: what others call this one comes from here. Calls
// by -> reach the shadow first; what it does not have goes on to the player.

#pragma strict_types

int begin(object who) {
  return shadow(who);
}

string called() { return "the masked figure"; }
string short() { return "a masked figure"; }
string long() { return "Who may be behind that mask?"; }

int id(string s) {
  return s == "figure" || s == "masked figure";
}

// A disguise that shadows nobody any more goes by itself.
int clean_up(int is_blueprint) {
  if (!is_blueprint && !query_shadowing(this_object())) destruct(this_object());
  return !is_blueprint;
}
