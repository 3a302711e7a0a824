// Who is a wizard. A file of its own, so that a new list needs no reload of
// anything that players depend on.

#pragma strict_types
#pragma no_clone
#include "/include/wizards.h"

int is_wizard(string name) {
  return member(WIZARD_NAMES, name) >= 0;
}
