// A notice board. Its notes are saved, and come back when it is made again.

#pragma strict_types
#include "/include/config.h"
inherit "/std/thing";

#define MAX_NOTES 30
#define MAX_LINES 20

// Each note is ({ author, title, text, moment }).
private mixed *notes = ({ });

// What is being written: its author to ({ title, text, lines }).
private nosave mapping drafts = ([ ]);

void create() {
  set_name("board");
  set_ids(({ "notice board", "notes" }));
  set_short("a notice board");
  restore_object(BOARD_SAVE);
}

string why_fixed() { return "It is nailed to the wall.\n"; }

string long() {
  return "The board has " + (sizeof(notes) == 1 ? "one note" : sizeof(notes) + " notes")
    + ". Type notes, read NUMBER, post TITLE or unpost NUMBER.";
}

void init() {
  add_action("list_notes", "notes");
  add_action("read_note", "read");
  add_action("post_note", "post");
  add_action("remove_note", "unpost");
}

static int list_notes(string s) {
  int n;

  foreach (mixed *note : notes) printf("%3d. %-40.40s %s\n", ++n, note[1], note[0]);
  if (!n) write("There are no notes.\n");
  return 1;
}

// The place of the note of a number that was typed, or -1 after the reason.
private int place_of(string s) {
  int n;

  if (s && sscanf(s, "%d", n) == 1 && n >= 1 && n <= sizeof(notes)) return n - 1;
  notify_fail("There is no such note.\n");
  return -1;
}

static int read_note(string s) {
  int at = place_of(s);

  if (at < 0) return 0;
  write(notes[at][1] + ", by " + notes[at][0] + ":\n" + notes[at][2]);
  return 1;
}

static int post_note(string s) {
  if (!s || trim(s) == "") {
    notify_fail("Post a note with which title?\n");
    return 0;
  }
  drafts[this_player()] = ({ clean(trim(s))[0..39], "", 0 });
  write("Write your note; a line with a single dot ends it.\n");
  input_to("got_line");
  return 1;
}

static void got_line(string s) {
  object who = this_player();
  mixed *draft = drafts[who];

  if (!draft) return;
  if (s != "." && draft[2] < MAX_LINES) {
    draft[1] += clean(s)[0..77] + "\n";
    draft[2]++;
    if (draft[2] < MAX_LINES) {
      input_to("got_line");
      return;
    }
    write("That is all that a note can hold.\n");
  }
  m_delete(drafts, who);
  notes += ({ ({ who->query_name(), draft[0], draft[1], time() }) });
  if (sizeof(notes) > MAX_NOTES) notes = notes[1..];
  save_object(BOARD_SAVE);
  write("Posted.\n");
  tell_others(environment(), capitalize(who->called()) + " posts a note.\n", ({ who }));
}

static int remove_note(string s) {
  int at = place_of(s);

  if (at < 0) return 0;
  if (notes[at][0] != this_player()->query_name() && !this_player()->is_wizard()) {
    notify_fail("That note is not yours.\n");
    return 0;
  }
  notes = notes[0..at - 1] + notes[at + 1..];
  save_object(BOARD_SAVE);
  write("Taken down.\n");
  return 1;
}
