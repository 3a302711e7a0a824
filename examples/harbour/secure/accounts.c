// Names and passwords, and who is in the game.
//
// There is no crypt() here, so the digest below is made of plain arithmetic. It
// keeps passwords out of the saved files, where a glance would show them; it is
// no strong cryptography. See the README.

#pragma strict_types
#pragma no_clone
#include "/include/config.h"

#define ROUNDS 100

// What is saved of one account, in a file of its own.
private string salt;
private string digest;

// Who is in the game: objects by their names in small letters.
private nosave mapping here = ([ ]);

int exists(string name) {
  return file_size(ACCOUNT_SAVE + name + ".o") >= 0;
}

// Two running sums, each below a prime of 31 bits, so that no product is too large
// for a number.
private string digest_of(string with_salt, string password) {
  string text = with_salt + "/" + password[0..59];
  int a = 1, b = 7, i, round, n = strlen(text);

  for (round = 0; round < ROUNDS; round++)
    for (i = 0; i < n; i++) {
      a = (a * 69069 + text[i] + round) % 2147483647;
      b = (b * 40692 + (text[i] ^ (a & 65535))) % 2147483399;
    }
  return sprintf("%08x%08x", a, b);
}

// Makes an account, or gives one a new password; 1, or 0 where it was not saved.
int set_password(string name, string password) {
  if (load_name(previous_object()) != LOGIN && load_name(previous_object()) != PLAYER) return 0;
  salt = sprintf("%08x%08x", random(1 << 32), random(1 << 32));
  digest = digest_of(salt, password);
  return !save_object(ACCOUNT_SAVE + name);
}

int check(string name, string password) {
  salt = 0;
  digest = 0;
  if (!restore_object(ACCOUNT_SAVE + name) || !salt || !digest) return 0;
  return digest == digest_of(salt, password);
}

void set_here(string name, object who) {
  here[name] = who;
}

void forget(string name) {
  m_delete(here, name);
}

object query_here(string name) {
  return here[name];
}
