// The curse of the gull: a shadow on whoever killed it. For a minute all that the
// cursed one says comes out as a cry.

#pragma strict_types

#define CURSED_SECONDS 60

void begin(object who) {
  if (who->is_cursed() || !shadow(who)) {
    destruct(this_object());
    return;
  }
  tell_object(who, "The dying gull looks at you. Your throat feels strange.\n");
  call_out("end", CURSED_SECONDS);
}

int is_cursed() { return 1; }

// In place of the player's own speak(), to which a call from here would go on.
void speak(string text) {
  object who = query_shadowing(this_object());

  who->speak("Kree!");
}

static void end() {
  object who = query_shadowing(this_object());

  if (who) tell_object(who, "Your throat is your own again.\n");
  destruct(this_object());
}

// The player dies or leaves.
void end_curse() {
  destruct(this_object());
}

int clean_up(int is_blueprint) {
  if (!is_blueprint && !query_shadowing(this_object())) destruct(this_object());
  return !is_blueprint;
}
