// The names of the wizards, in small letters. Whoever logs in first with such a
// name chooses its password: so make the character before the game is open.
// After a change the operator reloads this file and /secure/wizards.c.

#define WIZARD_NAMES  ({ "merle" })
