// The master: what the driver asks of the mudlib.

#pragma strict_types
#include "/include/config.h"

// A new connection gets an object that asks for name and password.
object connect() {
  return clone_object(LOGIN);
}

string get_simul_efun() {
  return "/secure/simul";
}

// What is loaded at the start, so that the monsters are about before a player comes.
string *epilog(int unused) {
  return ({ ACCOUNTS, WIZARDS, PLAYER,
            "/area/town/square", "/area/town/pier", "/area/town/tavern",
            "/area/light/pool", "/area/forest/glade" });
}

// Whatever goes wrong here is told by the driver's own log, and the game starts.
void preload(string name) {
  load_object(name);
}

// The line to a player, or to a visitor who was still logging in, was cut.
void disconnect(object who, string unused) {
  if (who) who->net_dead();
}

private int begins(string path, string front) {
  return strstr(path, front) == 0;
}

// Who may touch a file is decided by the file of the object that asks.
private string asker(object who) {
  return who ? load_name(who) : "";
}

mixed valid_read(string path, mixed unused, string fun, object who) {
  string by = asker(who);

  if (begins(path, ACCOUNT_SAVE)) return by == ACCOUNTS;
  if (begins(path, PLAYER_SAVE)) return by == PLAYER;
  if (begins(path, BOARD_SAVE)) return by == BOARD;
  if (begins(path, TEXT)) return 1;
  if (begins(path, LOG)) return by == "/secure/simul" || by == WIZTOOL;
  return by == WIZTOOL;
}

mixed valid_write(string path, mixed unused, string fun, object who) {
  string by = asker(who);

  if (begins(path, ACCOUNT_SAVE)) return by == ACCOUNTS;
  if (begins(path, PLAYER_SAVE)) return by == PLAYER;
  if (begins(path, BOARD_SAVE)) return by == BOARD;
  if (begins(path, LOG)) return by == "/secure/simul";
  return 0;
}

// Only players are ever shadowed, by disguises and curses.
int query_allow_shadow(object who) {
  return who && who->is_player();
}
