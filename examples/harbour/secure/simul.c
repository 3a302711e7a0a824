// Simul efuns: functions that every file may call like an efun.

#pragma strict_types
#include "/include/config.h"

// "a gull", "an eel".
string a(string noun) {
  if (!strlen(noun)) return "something";
  return (member("aeiouAEIOU", noun[0]) < 0 ? "a " : "an ") + noun;
}

// "nothing", "a rat", "a rat and a gull", "a rat, a gull and a crab".
string list_of(string *names) {
  int n = sizeof(names);

  if (!n) return "nothing";
  if (n == 1) return names[0];
  return implode(names[0..<2], ", ") + " and " + names[<1];
}

// The texts in order, by a merge sort: there is no efun that sorts.
string *sorted(string *texts) {
  int i, j, n = sizeof(texts);
  string *left, *right, *all;

  if (n < 2) return texts;
  left = sorted(texts[0..n / 2 - 1]);
  right = sorted(texts[n / 2..]);
  all = ({ });
  while (i < sizeof(left) && j < sizeof(right))
    all += ({ left[i] <= right[j] ? left[i++] : right[j++] });
  return all + left[i..] + right[j..];
}

// A text in lines of at most `width` letters; a longer word has a line of its own.
string wrap(string text, int width) {
  string line = "", all = "";

  foreach (string word : explode(text, " ")) {
    if (strlen(line) + strlen(word) >= width && line != "") {
      all += line + "\n";
      line = "";
    }
    line += (line == "" ? "" : " ") + word;
  }
  return all + line + "\n";
}

// What a player typed, without the control characters that would play tricks on
// the screens of those who read it.
string clean(string text) {
  int i, from, n = strlen(text);
  string all = "";

  for (i = 0; i < n; i++) {
    if (text[i] >= 32 && (text[i] < 127 || text[i] > 159)) continue;
    if (i > from) all += text[from..i - 1];
    from = i + 1;
  }
  return from ? all + text[from..] : text;
}

// Whether a text is made of the plain letters that names of files have. A wizard's
// command looks at this before it loads what somebody typed: a mistyped name is told
// as one, and the log has no line of a missing file for it.
int plain_name(string path) {
  int i, n = strlen(path);

  if (!n || n > 200) return 0;
  for (i = 0; i < n; i++) {
    int c = path[i];
    if (c >= 'a' && c <= 'z' || c >= 'A' && c <= 'Z' || c >= '0' && c <= '9') continue;
    if (c == '/' || c == '_' || c == '-' || c == '.') continue;
    return 0;
  }
  return 1;
}

// Each living one in the room but those in `but` is told a text.
void tell_others(object room, string text, object *but) {
  if (!room) return;
  foreach (object who : all_inventory(room))
    if (who && living(who) && member(but, who) < 0) tell_object(who, text);
}

// A thing by what a player calls it: "knife", or "knife 2" for the second.
object find_thing(string what, object where) {
  int n;
  string name;

  if (!what || !where) return 0;
  if (sscanf(what, "%s %d", name, n) != 2 || n < 1) return present(what, where);
  foreach (object thing : all_inventory(where))
    if (thing && thing->id(name) && !--n) return thing;
  return present(what, where);
}

// The player of this name who is in the game, asleep or not, or 0.
object find_player(string name) {
  object player = ACCOUNTS->query_here(name);

  if (player) return player;
  foreach (object who : users())
    if (who->is_player() && who->account() == name) return who;
  return 0;
}

// A line in a log file, which begins anew when it is long.
void log_file(string name, string text) {
  if (file_size(LOG + name) > MAX_LOG) rm(LOG + name);
  write_file(LOG + name, time() + " " + text + "\n");
}
