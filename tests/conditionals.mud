# Conditionals. A row is the file /t, whose function `t` gives what it has to show; the master writes it as `%O` spells
# it. Faults of conditionals stand in faults_of_directives.mud.
--- /t.c
@@
--- /secure/master.c
object connect() { return this_object(); }
int logon() { write(sprintf("%O", load_object("/t")->t())); return 1; }
--- play
connect 1
end

=== defined
# `defined` with parentheses and without, also where a macro put it in. The names of file, folder and line are defined.
code: #define D defined(D)
code: #if D && defined Q || !defined __DIR__ ? 0 : 1
code: int t() { return 1; }
code: #else
code: int t() { return 2; }
code: #endif
gives: "1"

=== ifdef_and_ifndef
# Conditionals in one another: the lines of what is left stay what they were.
code: #ifndef X
code: #define X
code: #ifdef X
code: int a = __LINE__;
code: #else
code: int a = 0;
code: #endif
code: #else
code: int a = 1;
code: #endif
code: #ifdef Y
code: int b = 2;
code: #elif 1
code: int b = __LINE__;
code: #elif 1/0
code: int b = 3;
code: #endif
code: mixed t() { return ({ a, b }); }
gives: "({ 4, 14 })"

=== undefined_again
# What was undefined is not defined.
code: #define A 1
code: #undef A
code: #undef B
code: #ifdef A
code: int t() { return 1; }
code: #elif defined(B)
code: int t() { return 2; }
code: #else
code: int t() { return 3; }
code: #endif
gives: "3"

=== operators
# Each operator of a condition. Other names are 0.
code: #if !0 && ~0 == -1 && 2 - 3 < 0 && 2 * 3 == 6 && 7 / 2 == 3 && -7 % 2 == -1 && 1 + 1 <= 2 && 1 << 3 == 8
code: int a = 1;
code: #endif
code: #if -8 >> 1 == -4 && 2 > 1 && 2 >= 2 && 1 != 2 && (6 & 3) == 2 && (6 ^ 3) == 5 && (6 | 3) == 7 && (0 || 1)
code: int b = 2;
code: #endif
code: #if (0 ? 0 : 1) && !nothing && 0x10 == 16 && -1 * -1 == 1 && 1 - 1 - 1 == -1
code: int c = 3;
code: #endif
code: mixed t() { return ({ a, b, c }); }
gives: "({ 1, 2, 3 })"

=== operators_that_fail
# The same with another number in each: none of them holds.
code: #if !1 || ~0 == 1 || 2 - 3 >= 0 || 2 * 3 == 5 || 7 / 2 == 4 || -7 % 2 == 1 || 1 + 1 < 2 || 1 << 3 == 6
code: int a = 1;
code: #endif
code: #if -8 >> 1 == 4 || 2 > 2 || 2 >= 3 || 1 != 1 || (6 & 3) == 3 || (6 ^ 3) == 7 || (6 | 3) == 6 || (0 && 1)
code: int b = 2;
code: #endif
code: #if (0 ? 1 : 0) || nothing || 0x10 == 10 || -1 * -1 == -1 || 1 - 1 - 1 == 1
code: int c = 3;
code: #endif
code: int a = 4, b = 5, c = 6;
code: mixed t() { return ({ a, b, c }); }
gives: "({ 4, 5, 6 })"

=== what_is_not_needed
# What an `&&` or `||` does not need is not evaluated.
code: #if 0 && 1/0
code: int t() { return 2; }
code: #elif 1 || 1/0
code: int t() { return 3; }
code: #endif
gives: "3"

=== groups_that_are_skipped
# In a skipped group no token is bad, and only conditionals are looked at.
code: #if 0
code: 'oops "open é
code: #nothing
code: #error no
code: #include "none"
code: #define A 1
code: #if garbage )(
code: #else junk
code: #endif junk
code: #elif 1
code: #ifndef A
code: int t() { return __LINE__; }
code: #endif
code: #endif
gives: "12"

=== comment_over_a_directive
# In a comment there is no directive. A directive goes on behind a joined line, and a comment is a space.
code: /*
code: #if 0
code: */
code: # /* a mark and its word stand apart */ define A \
code: 5
code: int t() { return A; } // #if 0
gives: "5"

=== conditions_by_macros
# Macros with parameters in a condition.
code: #define TWICE(x) ((x) + (x))
code: #if TWICE(2) == 4 && defined(TWICE) && !defined(TWICE2)
code: int t() { return TWICE(3); }
code: #endif
gives: "6"
