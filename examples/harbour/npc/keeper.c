// The keeper of the lighthouse, who tells of the quest and pays for it. What a
// player says is heard by catch_tell, as every living one without a line hears.

#pragma strict_types
inherit "/std/monster";

void create() {
  ::create();
  set_name("keeper");
  set_ids(({ "old keeper", "man" }));
  set_short("the old keeper of the lighthouse");
  set_long("He looks at the dark lamp room above and shakes his head.");
  set_strength(60);
  set_bare_damage(6);
  set_worth(0);
}

void catch_tell(string text) {
  if (find_call_out("answer") >= 0 || strstr(text, " says: ") < 0) return;
  if (strstr(text, "lamp") >= 0 || strstr(text, "help") >= 0) call_out("answer", 1);
}

static void answer() {
  if ("/area/light/lamp"->query_is_lit())
    tell_others(environment(), "The keeper says: How she shines!\n", ({ this_object() }));
  else
    tell_others(environment(),
      "The keeper says: The lens is gone. A great crab has it, in the pool below.\n"
      "The keeper says: Fit the lens, pour oil, and light the lamp, and I will pay you.\n",
      ({ this_object() }));
}

// He gives back what he is given.
void given(object thing, object by) {
  tell_others(environment(), "The keeper says: Keep it, young one.\n", ({ this_object() }));
  thing->move(by);
}

// Called by the lamp when it is lit.
void thank(object who) {
  if (!who->finish_quest("lit the lamp of the lighthouse", 60)) return;
  tell_object(who, "The keeper presses 40 coins into your hand.\n");
  who->add_coins(40);
}
