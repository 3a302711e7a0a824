// Who has just connected: asks for name and password, and then hands the
// connection to a player.

#pragma strict_types
#include "/include/config.h"

private string name;
private string password;
private int tries;

int logon() {
  write(read_file(TEXT + "welcome") || "Welcome.\n");
  ask_name();
  call_out("too_slow", LOGIN_SECONDS);
  return 1;
}

private void ask_name() {
  write("By what name are you known? ");
  input_to("got_name");
}

// Three wrong answers are enough: the object goes, and its connection with it.
private int too_many() {
  if (++tries < 3) return 0;
  write("Come back when you remember.\n");
  destruct(this_object());
  return 1;
}

// A name becomes part of the names of files: it is made of plain letters alone.
private int is_name(string s) {
  int i, n = strlen(s);

  if (n < 2 || n > 12) return 0;
  for (i = 0; i < n; i++)
    if (s[i] < 'a' || s[i] > 'z') return 0;
  return 1;
}

static void got_name(string s) {
  name = lower_case(trim(s));
  if (!is_name(name)) {
    write("A name has 2 to 12 letters, from a to z.\n");
    if (!too_many()) ask_name();
  } else if (ACCOUNTS->exists(name)) {
    write("Password: ");
    input_to("got_password", 1);
  } else {
    write("Nobody is called " + capitalize(name) + " here. Shall that be your name? (yes or no) ");
    input_to("got_yes");
  }
}

// Behind a hidden line the screen has no new line of its own.
static void got_password(string s) {
  write("\n");
  if (ACCOUNTS->check(name, s)) {
    enter();
    return;
  }
  log_file("logins", "wrong password for " + name);
  write("That is not the password.\n");
  if (!too_many()) ask_name();
}

static void got_yes(string s) {
  s = lower_case(trim(s));
  if (s == "yes" || s == "y") ask_new();
  else if (!too_many()) ask_name();
}

private void ask_new() {
  write("Choose a password, of at least five letters: ");
  input_to("got_new", 1);
}

static void got_new(string s) {
  write("\n");
  if (strlen(s) < 5) {
    write("That is too short.\n");
    if (!too_many()) ask_new();
    return;
  }
  password = s;
  write("The same again: ");
  input_to("got_again", 1);
}

static void got_again(string s) {
  write("\n");
  if (s != password) {
    write("Those were two different ones.\n");
    if (!too_many()) ask_new();
    return;
  }
  if (ACCOUNTS->exists(name) || !ACCOUNTS->set_password(name, password)) {
    write("That name is taken by now.\n");
    if (!too_many()) ask_name();
    return;
  }
  log_file("logins", "new account " + name);
  enter();
}

// A player who sleeps is woken, and one who is here is taken over from the other
// connection, which closes.
private void enter() {
  object player = find_player(name);
  int is_here = player != 0;

  if (is_here && interactive(player)) {
    tell_object(player, "Somebody with your password takes over.\n");
    remove_interactive(player);
  }
  if (!is_here) player = clone_object(PLAYER);
  if (exec(player, this_object())) {
    if (is_here) player->wake_up();
    else player->enter(name);
  } else write("You cannot come in now.\n");
  destruct(this_object());
}

static void too_slow() {
  tell_object(this_object(), "\nYou take too long. Good bye.\n");
  destruct(this_object());
}

// The line was cut.
void net_dead() {
  destruct(this_object());
}
