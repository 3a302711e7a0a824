# `shadow`, where nothing stands in its way but the master, who is asked last; and what becomes of the two while it is asked.
--- /player.c
// The shadow. Where it may not begin, `query_shadowing` says so too.
int logon() { return "/world"->arrived(); }
string shadows(object o) {
  mixed answer, error;
  error = catch(answer = shadow(o));
  return (error ? error : answer + " ") + (this_object() ? sprintf("%O\n", query_shadowing(this_object())) : "ended\n");
}
--- /sword.c
--- /hall.c
--- /world.c
object player, sword, hall;
object *all() { return ({ player, sword, hall }); }
object begin() { player = clone_object("/player"); sword = load_object("/sword"); hall = load_object("/hall"); return player; }
int arrived() { @@ return 1; }
--- /answer.c
// What the master answers, the two being the player and the sword.
mixed answer(object player, object sword, object hall) { return 1; }
--- /secure/master.c
void create() { if (this_player()) write("The master is loaded.\n"); }
object connect() { return "/world"->begin(); }
mixed query_allow_shadow(object o) {
  object *all;
  all = "/world"->all();
  write(sprintf("The master is asked for %O.\n", o));
  return "/answer"->answer(all[0], all[1], all[2]);
}
--- play
connect 1
end

=== it_allows
# The one shadows the other then.
code: tell_object(player, player->shadows(sword));
gives: "The master is asked for /sword.\n1 /sword\n"

=== any_answer_but_0_allows
# So do a negative integer, an empty text and an empty array.
code: tell_object(player, player->shadows(sword)); player = clone_object("/player"); sword = clone_object("/sword"); write(player->shadows(sword));
code: player = clone_object("/player"); sword = clone_object("/sword"); write(player->shadows(sword));
gives: "The master is asked for /sword.\n1 /sword\nThe master is asked for /sword#3.\n1 /sword#3\nThe master is asked for /sword#5.\n1 /sword#5\n"
--- /answer.c
int n;
mixed answer(object player, object sword, object hall) { return ({ -1, "", ({ }) })[n++]; }

=== it_refuses
# With 0, or an object that ended, which is 0.
code: write(player->shadows(sword)); write(player->shadows(sword));
gives: "The master is asked for /sword.\n0 0\nThe master is asked for /sword.\n0 0\n"
--- /answer.c
int n;
mixed answer(object player, object sword, object hall) { object o; if (n++) return 0; o = clone_object("/sword"); destruct(o); return o; }

=== the_other_ends
# Whom it would shadow was destructed meanwhile.
code: write(player->shadows(sword));
gives: "The master is asked for /sword.\n0 0\n"
--- /answer.c
mixed answer(object player, object sword, object hall) { destruct(sword); return 1; }

=== it_ends_itself
# The one that would shadow was.
code: object o; o = clone_object("/player"); player = o; write(o->shadows(sword));
gives: "The master is asked for /sword.\n0 ended\n"
--- /answer.c
mixed answer(object player, object sword, object hall) { destruct(player); return 1; }

=== it_comes_into_a_place
# A shadow is nowhere.
code: write(player->shadows(sword));
gives: "The master is asked for /sword.\n0 0\n"
--- /answer.c
mixed answer(object player, object sword, object hall) { move_object(player, hall); return 1; }

=== the_other_comes_into_a_place
# Whom it shadows may be somewhere.
code: write(player->shadows(sword)); write(sprintf("%O\n", environment(sword)));
gives: "The master is asked for /sword.\n1 /sword\n/hall\n"
--- /answer.c
mixed answer(object player, object sword, object hall) { move_object(sword, hall); return 1; }

=== the_other_is_shadowed_meanwhile
# By another one, which does not stand in the way: shadows form a chain.
code: write(player->shadows(sword));
gives: "The master is asked for /sword.\nThe master is asked for /sword.\n1 /sword\n1 /sword\n"
--- /answer.c
int n;
mixed answer(object player, object sword, object hall) { if (!n++) write(clone_object("/player")->shadows(sword)); return 1; }

=== it_shadows_meanwhile
# Who shadows already does not begin anew.
code: write(player->shadows(sword));
gives: "The master is asked for /sword.\nThe master is asked for /hall.\n1 /hall\n0 /hall\n"
--- /answer.c
int n;
mixed answer(object player, object sword, object hall) { if (!n++) write(player->shadows(hall)); return 1; }

=== the_master_fails
# The error goes to the caller, and no shadow begins.
code: write(player->shadows(sword));
gives: "The master is asked for /sword.\n*ouch\n0\n"
--- /answer.c
mixed answer(object player, object sword, object hall) { raise_error("ouch"); }

=== the_master_is_loaded
# Where it is not live it is loaded first, and asked.
code: destruct(find_object("/secure/master")); write(player->shadows(sword));
gives: "The master is loaded.\nThe master is asked for /sword.\n1 /sword\n"

=== the_master_ends_as_it_is_loaded
# Then nobody allows it.
code: destruct(find_object("/secure/master")); write(player->shadows(sword));
gives: "0 0\n"
--- /secure/master.c
void create() { if (this_player()) destruct(this_object()); }
object connect() { return "/world"->begin(); }
int query_allow_shadow(object o) { return 1; }

=== the_master_fails_as_it_is_loaded
# The error goes to the caller.
code: destruct(find_object("/secure/master")); write(player->shadows(sword));
gives: "*ouch\n0\n"
--- /secure/master.c
void create() { if (this_player()) raise_error("ouch"); }
object connect() { return "/world"->begin(); }
int query_allow_shadow(object o) { return 1; }
