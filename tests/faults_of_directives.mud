# The first fault of an expansion, with its line. A row is the file /t.c.
words: check
--- /t.c
@@

=== argument_too_many
# An argument of a macro that has no parameter. No argument where there is one parameter is an empty argument.
code: #define F(x) [x]
code: #define G() g
code: #define H(x,y) x|y
code: F() G() H(,)
code: G(1)
--- written
/t.c line 5: wrong macro arguments
1 files, 1 faults

=== argument_too_few
# One argument for two parameters.
code: #define H(x,y) x|y
code: H(,) H(1)
--- written
/t.c line 2: wrong macro arguments
1 files, 1 faults

=== arguments_too_many
# Three for two.
code: #define H(x,y) x|y
code: H(,)
code: H((1,2),3) H(1,2,3)
--- written
/t.c line 3: wrong macro arguments
1 files, 1 faults

=== open_arguments
# Arguments that do not end.
code: #define F(x) x
code: 1
code: F(2
--- written
/t.c line 3: wrong macro arguments
1 files, 1 faults

=== open_arguments_of_an_included_file
# The fault stands at the include.
code: #define F(x) x
code:
code: #include "b"
--- /b
1
F(2
--- written
/t.c line 3: wrong macro arguments
1 files, 1 faults

=== skipped_group
# In a skipped group only the directives of conditionals are looked at, of these not what stands in them, and no token is
# bad. An `#elif` behind an `#else` is none of its conditional.
code: #if 0
code: 'oops "open
code: #if garbage )(
code: #else junk
code: #elif ((
code: ..
--- written
/t.c line 5: stray directive
1 files, 1 faults

=== elif_behind_a_group
# The condition of an `#elif` is looked at where no group was taken before, and not else.
code: #if 1
code: 1
code: #elif ((
code: 2
code: #else
code: 3
code: #endif
code: #if 0
code: #elif 1/0
code: #endif
--- written
/t.c line 9: bad directive
1 files, 1 faults

=== other_body
# A macro may be defined again with the same tokens, and not with others.
code: #define A(x) x + 1
code: #define A(x)   x + /* same */ 1
code: #define A(y) y + 1
--- written
/t.c line 3: bad directive
1 files, 1 faults

=== other_parameters
# Parameters count too.
code: #define A 1
code: #define A() 1
--- written
/t.c line 2: bad directive
1 files, 1 faults

=== open_if
# The fault stands at the last line that has a token.
code: 1
code: #ifdef X
code: 2
code:
code:
--- written
/t.c line 3: open #if
1 files, 1 faults

=== open_if_of_an_included_file
# A conditional does not go on behind its file. The fault stands at the include.
code: 1
code:
code: #include "b"
code: 2
code: #endif
--- /b
#if 1
5
--- written
/t.c line 3: open #if
1 files, 1 faults

=== open_include
# An include of the folder of headers ends with its mark.
code: #include <x.h>
code: #include <x.h
--- /sys/x.h
7
--- written
/t.c line 2: bad directive
1 files, 1 faults

=== mark_alone
# A mark that begins a line and nothing else.
code: #
--- written
/t.c line 1: bad directive
1 files, 1 faults

=== bad_token_of_a_pragma
# Words that are no pragmas are ignored, and so are numbers, but no bad tokens.
code: #pragma strict_types, weak_types no_clone 7 zz
code: 1
code: #pragma strong_types
code: #pragma 'x
--- written
/t.c line 4: bad token
1 files, 1 faults

=== open_comment
# A comment that does not end, which stands before all other faults of the file.
code: 1
code: 2 é
code: /*
--- written
/t.c line 3: bad token
1 files, 1 faults

=== bad_token
# Letters beyond ASCII begin no token.
code: 1
code: 2 é
--- written
/t.c line 2: bad token
1 files, 1 faults

=== open_character
# A letter in one quote.
code: 1 'x
--- written
/t.c line 1: bad token
1 files, 1 faults

=== no_include
# A file that is not there.
code: 1
code: #include "none"
--- written
/t.c line 2: no such include
1 files, 1 faults

=== include_of_itself
# A file that includes itself does so for ever.
code:
code: #include "t.c"
--- written
/t.c line 2: includes too deep
1 files, 1 faults

=== error
# What stands behind it is ignored.
code: 1
code: #error x y
--- written
/t.c line 2: #error
1 files, 1 faults

=== error_in_a_skipped_group
# In a skipped group it is none; the fault is that of the line behind it.
code: #if 0
code: #error x y
code: #endif
code: #error
--- written
/t.c line 4: #error
1 files, 1 faults

=== bad_token_of_an_error
# A bad token of the line comes first.
code: 1
code: #error x'y z
--- written
/t.c line 2: bad token
1 files, 1 faults

=== else_alone
# An `#else` without a conditional.
code: #else
--- written
/t.c line 1: stray directive
1 files, 1 faults

=== second_else
# A second `#else`.
code: #if 1
code: #else
code: #else
--- written
/t.c line 3: stray directive
1 files, 1 faults

=== endif_alone
# An `#endif` without a conditional.
code: #endif
--- written
/t.c line 1: stray directive
1 files, 1 faults

=== elif_alone
# An `#elif` without a conditional.
code: #if 1
code: #endif
code: #elif 1
--- written
/t.c line 3: stray directive
1 files, 1 faults

=== endif_of_an_included_file
# An included file does not end a conditional of its includer.
code: #if 1
code: #include "b"
code: #endif
--- /b
#endif
--- written
/t.c line 2: stray directive
1 files, 1 faults

=== word_behind_ifdef
# Only one name stands behind an `#ifdef`.
code: #ifdef A B
code: #endif
--- written
/t.c line 1: bad directive
1 files, 1 faults

=== word_behind_undef
# Only one behind an `#undef`.
code: #undef A B
--- written
/t.c line 1: bad directive
1 files, 1 faults

=== word_behind_endif
# None behind an `#endif`.
code: #if 1
code: #endif 1
--- written
/t.c line 2: bad directive
1 files, 1 faults

=== equal_parameters
# Two parameters of one name.
code: #define F(a,a) 1
--- written
/t.c line 1: bad directive
1 files, 1 faults

=== definition_of_a_line
# The names of file, folder and line may not be defined.
code: #define __LINE__ 1
--- written
/t.c line 1: bad directive
1 files, 1 faults

=== definition_of_a_file
# Nor the second of them.
code: #define __FILE__ 1
--- written
/t.c line 1: bad directive
1 files, 1 faults

=== definition_of_a_folder
# Nor the third.
code: #define __DIR__ 1
--- written
/t.c line 1: bad directive
1 files, 1 faults

=== no_directive
# A word that is none.
code: #nothing
--- written
/t.c line 1: bad directive
1 files, 1 faults

=== two_conditions
# An expression ends where it ends.
code: #if 1 2
code: #endif
--- written
/t.c line 1: bad directive
1 files, 1 faults

=== text_as_a_condition
# A condition has no texts.
code: #if "a"
code: #endif
--- written
/t.c line 1: bad directive
1 files, 1 faults

=== no_condition
# A condition is there.
code: #if
code: #endif
--- written
/t.c line 1: bad directive
1 files, 1 faults

=== defined_of_nothing
# `defined` has a name.
code: #if defined
code: #endif
--- written
/t.c line 1: bad directive
1 files, 1 faults

=== division_by_zero
# An error of an operator is a fault; what is not needed is not evaluated.
code: #if 0 && 1 / 0 || 1 || 1 / 0
code: #if 1 / 0
code: #endif
code: #endif
--- written
/t.c line 2: bad directive
1 files, 1 faults

=== bytes_that_are_no_letters
# Bytes that are no UTF-8 are a fault of their line, before an open comment behind them.
--- /t.c "1\n2 \xff\n/*"
--- written
/t.c line 2: bad token
1 files, 1 faults

=== bytes_in_an_open_comment
# Also in a comment that does not end, which begins before them.
--- /t.c "1\n/* \xff"
--- written
/t.c line 2: bad token
1 files, 1 faults

=== bytes_of_an_included_file
# In an included file they have the line of its include, also where no token of it would be read, and before what stands
# behind the include.
--- /t.c "1\n\n#include \"b\"\n#else"
--- /b "#if 0\n\xc3\n#endif"
--- written
/t.c line 3: bad token
1 files, 1 faults

=== open_comment_of_an_included_file
# So has a comment that does not end.
--- /t.c "#include <b>\n1"
--- /sys/b "1\n2 /* 3"
--- written
/t.c line 1: bad token
1 files, 1 faults

=== bytes_of_a_file_that_is_not_included
# What is not opened is not looked at: the fault is that of the grammar.
--- /t.c "#if 0\n#include \"b\"\n#endif\n1"
--- /b "\xff"
--- written
/t.c line 4: unexpected token
1 files, 1 faults

=== text_over_the_end_of_a_line
# A text ends on its line.
code: string s = "a
code: ";
--- written
/t.c line 1: bad token
1 files, 1 faults

=== number_too_large
# The greatest number, and one more.
code: int a = 9223372036854775807, b = 0x7fffffffffffffff;
code: int c = 9223372036854775808;
--- written
/t.c line 2: bad token
1 files, 1 faults

=== uses_too_deep
# 65 macros, each of which stands for the next. The fault stands at the use.
code: #define M0 M1
code: #define M1 M2
code: #define M2 M3
code: #define M3 M4
code: #define M4 M5
code: #define M5 M6
code: #define M6 M7
code: #define M7 M8
code: #define M8 M9
code: #define M9 M10
code: #define M10 M11
code: #define M11 M12
code: #define M12 M13
code: #define M13 M14
code: #define M14 M15
code: #define M15 M16
code: #define M16 M17
code: #define M17 M18
code: #define M18 M19
code: #define M19 M20
code: #define M20 M21
code: #define M21 M22
code: #define M22 M23
code: #define M23 M24
code: #define M24 M25
code: #define M25 M26
code: #define M26 M27
code: #define M27 M28
code: #define M28 M29
code: #define M29 M30
code: #define M30 M31
code: #define M31 M32
code: #define M32 M33
code: #define M33 M34
code: #define M34 M35
code: #define M35 M36
code: #define M36 M37
code: #define M37 M38
code: #define M38 M39
code: #define M39 M40
code: #define M40 M41
code: #define M41 M42
code: #define M42 M43
code: #define M43 M44
code: #define M44 M45
code: #define M45 M46
code: #define M46 M47
code: #define M47 M48
code: #define M48 M49
code: #define M49 M50
code: #define M50 M51
code: #define M51 M52
code: #define M52 M53
code: #define M53 M54
code: #define M54 M55
code: #define M55 M56
code: #define M56 M57
code: #define M57 M58
code: #define M58 M59
code: #define M59 M60
code: #define M60 M61
code: #define M61 M62
code: #define M62 M63
code: #define M63 M64
code: #define M64 M65
code: M0
--- written
/t.c line 66: macros too deep
1 files, 1 faults

=== arguments_too_deep
# 64 uses in the arguments of one another, and 65.
code: #define I(x) x
code: int a = I(I(I(I(I(I(I(I(I(I(I(I(I(I(I(I(I(I(I(I(I(I(I(I(I(I(I(I(I(I(I(I(I(I(I(I(I(I(I(I(I(I(I(I(I(I(I(I(I(I(I(I(I(I(I(I(I(I(I(I(I(I(I(I(1))))))))))))))))))))))))))))))))))))))))))))))))))))))))))))))));
code: I(I(I(I(I(I(I(I(I(I(I(I(I(I(I(I(I(I(I(I(I(I(I(I(I(I(I(I(I(I(I(I(I(I(I(I(I(I(I(I(I(I(I(I(I(I(I(I(I(I(I(I(I(I(I(I(I(I(I(I(I(I(I(I(I(1)))))))))))))))))))))))))))))))))))))))))))))))))))))))))))))))))
--- written
/t.c line 3: macros too deep
1 files, 1 faults

=== parentheses_of_a_condition
# A condition may be nested 200 deep: 199 parentheses round a number, and 200.
code: #if (((((((((((((((((((((((((((((((((((((((((((((((((((((((((((((((((((((((((((((((((((((((((((((((((((((((((((((((((((((((((((((((((((((((((((((((((((((((((((((((((((((((((((((((((((((((((((((((((((((((1)))))))))))))))))))))))))))))))))))))))))))))))))))))))))))))))))))))))))))))))))))))))))))))))))))))))))))))))))))))))))))))))))))))))))))))))))))))))))))))))))))))))))))))))))))))))))))))))))))))))
code: int a;
code: #endif
code: #if ((((((((((((((((((((((((((((((((((((((((((((((((((((((((((((((((((((((((((((((((((((((((((((((((((((((((((((((((((((((((((((((((((((((((((((((((((((((((((((((((((((((((((((((((((((((((((((((((((((((((1))))))))))))))))))))))))))))))))))))))))))))))))))))))))))))))))))))))))))))))))))))))))))))))))))))))))))))))))))))))))))))))))))))))))))))))))))))))))))))))))))))))))))))))))))))))))))))))))))))))))
code: #endif
--- written
/t.c line 4: bad directive
1 files, 1 faults

=== too_many_tokens
# 200000 tokens in one line, and one more.
code: #define A ;;;;;;;;;;
code: #define B A A A A A A A A A A
code: #define C B B B B B B B B B B
code: #define D C C C C C C C C C C
code: D D D D D D D D D D D D D D D D D D D D
code: ;
--- written
/t.c line 6: too many tokens
1 files, 1 faults

=== too_many_uses
# Each use of a macro counts one: 1000000 of them, and one more.
code: #define E
code: #define A E E E E E E E E E E
code: #define B A A A A A A A A A A
code: #define C B B B B B B B B B B
code: #define D C C C C C C C C C C
code: #define F D D D D D D D D D D
code: F F F F
code: D D D D D
code: E E E E E E E E E E E
code: E
--- written
/t.c line 10: too many tokens
1 files, 1 faults

=== too_many_texts_put_in
# A use counts one and what it puts in: 999 uses of 999 texts, and one of 1000.
code: #define T "" "" "" "" "" "" "" "" "" "" "" "" "" "" "" "" "" "" "" "" "" "" "" "" "" "" "" "" "" "" "" "" "" "" "" "" "" "" "" "" "" "" "" "" "" "" "" "" "" "" "" "" "" "" "" "" "" "" "" "" "" "" "" "" "" "" "" "" "" "" "" "" "" "" "" "" "" "" "" "" "" "" "" "" "" "" "" "" "" "" "" "" "" "" "" "" "" "" "" "" "" "" "" "" "" "" "" "" "" "" "" "" "" "" "" "" "" "" "" "" "" "" "" "" "" "" "" "" "" "" "" "" "" "" "" "" "" "" "" "" "" "" "" "" "" "" "" "" "" "" "" "" "" "" "" "" "" "" "" "" "" "" "" "" "" "" "" "" "" "" "" "" "" "" "" "" "" "" "" "" "" "" "" "" "" "" "" "" "" "" "" "" "" "" "" "" "" "" "" "" "" "" "" "" "" "" "" "" "" "" "" "" "" "" "" "" "" "" "" "" "" "" "" "" "" "" "" "" "" "" "" "" "" "" "" "" "" "" "" "" "" "" "" "" "" "" "" "" "" "" "" "" "" "" "" "" "" "" "" "" "" "" "" "" "" "" "" "" "" "" "" "" "" "" "" "" "" "" "" "" "" "" "" "" "" "" "" "" "" "" "" "" "" "" "" "" "" "" "" "" "" "" "" "" "" "" "" "" "" "" "" "" "" "" "" "" "" "" "" "" "" "" "" "" "" "" "" "" "" "" "" "" "" "" "" "" "" "" "" "" "" "" "" "" "" "" "" "" "" "" "" "" "" "" "" "" "" "" "" "" "" "" "" "" "" "" "" "" "" "" "" "" "" "" "" "" "" "" "" "" "" "" "" "" "" "" "" "" "" "" "" "" "" "" "" "" "" "" "" "" "" "" "" "" "" "" "" "" "" "" "" "" "" "" "" "" "" "" "" "" "" "" "" "" "" "" "" "" "" "" "" "" "" "" "" "" "" "" "" "" "" "" "" "" "" "" "" "" "" "" "" "" "" "" "" "" "" "" "" "" "" "" "" "" "" "" "" "" "" "" "" "" "" "" "" "" "" "" "" "" "" "" "" "" "" "" "" "" "" "" "" "" "" "" "" "" "" "" "" "" "" "" "" "" "" "" "" "" "" "" "" "" "" "" "" "" "" "" "" "" "" "" "" "" "" "" "" "" "" "" "" "" "" "" "" "" "" "" "" "" "" "" "" "" "" "" "" "" "" "" "" "" "" "" "" "" "" "" "" "" "" "" "" "" "" "" "" "" "" "" "" "" "" "" "" "" "" "" "" "" "" "" "" "" "" "" "" "" "" "" "" "" "" "" "" "" "" "" "" "" "" "" "" "" "" "" "" "" "" "" "" "" "" "" "" "" "" "" "" "" "" "" "" "" "" "" "" "" "" "" "" "" "" "" "" "" "" "" "" "" "" "" "" "" "" "" "" "" "" "" "" "" "" "" "" "" "" "" "" "" "" "" "" "" "" "" "" "" "" "" "" "" "" "" "" "" "" "" "" "" "" "" "" "" "" "" "" "" "" "" "" "" "" "" "" "" "" "" "" "" "" "" "" "" "" "" "" "" "" "" "" "" "" "" "" "" "" "" "" "" "" "" "" "" "" "" "" "" "" "" "" "" "" "" "" "" "" "" "" "" "" "" "" "" "" "" "" "" "" "" "" "" "" "" "" "" "" "" "" "" "" "" "" "" "" "" "" "" "" "" "" "" "" "" "" "" "" "" "" "" "" "" "" "" "" "" "" "" "" "" "" "" "" "" "" "" "" "" "" "" "" "" "" "" "" "" "" "" "" "" "" "" "" "" "" "" "" "" "" "" "" "" "" "" "" "" "" "" "" "" "" "" "" "" "" "" "" "" "" "" "" "" "" "" "" "" "" "" "" "" "" "" "" "" "" "" "" "" "" "" "" "" "" "" "" "" "" "" "" "" "" "" "" "" "" "" "" "" "" "" "" "" "" "" "" "" "" "" "" "" "" "" "" "" "" "" "" "" "" "" "" "" "" "" "" "" "" "" "" "" "" "" "" "" "" "" "" "" "" "" "" "" "" "" "" "" "" "" "" "" "" "" "" "" "" "" "" "" "" "" "" "" "" "" "" "" "" "" "" "" "" "" "" "" "" "" "" "" "" "" "" "" "" "" "" "" "" "" "" "" "" "" "" "" "" "" "" "" "" "" "" "" "" "" "" "" "" "" "" "" "" "" "" "" "" "" "" "" ""
code: T T T T T T T T T T T T T T T T T T T T T T T T T T T T T T T T T T T T T T T T T T T T T T T T T T
code: T T T T T T T T T T T T T T T T T T T T T T T T T T T T T T T T T T T T T T T T T T T T T T T T T T
code: T T T T T T T T T T T T T T T T T T T T T T T T T T T T T T T T T T T T T T T T T T T T T T T T T T
code: T T T T T T T T T T T T T T T T T T T T T T T T T T T T T T T T T T T T T T T T T T T T T T T T T T
code: T T T T T T T T T T T T T T T T T T T T T T T T T T T T T T T T T T T T T T T T T T T T T T T T T T
code: T T T T T T T T T T T T T T T T T T T T T T T T T T T T T T T T T T T T T T T T T T T T T T T T T T
code: T T T T T T T T T T T T T T T T T T T T T T T T T T T T T T T T T T T T T T T T T T T T T T T T T T
code: T T T T T T T T T T T T T T T T T T T T T T T T T T T T T T T T T T T T T T T T T T T T T T T T T T
code: T T T T T T T T T T T T T T T T T T T T T T T T T T T T T T T T T T T T T T T T T T T T T T T T T T
code: T T T T T T T T T T T T T T T T T T T T T T T T T T T T T T T T T T T T T T T T T T T T T T T T T T
code: T T T T T T T T T T T T T T T T T T T T T T T T T T T T T T T T T T T T T T T T T T T T T T T T T T
code: T T T T T T T T T T T T T T T T T T T T T T T T T T T T T T T T T T T T T T T T T T T T T T T T T T
code: T T T T T T T T T T T T T T T T T T T T T T T T T T T T T T T T T T T T T T T T T T T T T T T T T T
code: T T T T T T T T T T T T T T T T T T T T T T T T T T T T T T T T T T T T T T T T T T T T T T T T T T
code: T T T T T T T T T T T T T T T T T T T T T T T T T T T T T T T T T T T T T T T T T T T T T T T T T T
code: T T T T T T T T T T T T T T T T T T T T T T T T T T T T T T T T T T T T T T T T T T T T T T T T T T
code: T T T T T T T T T T T T T T T T T T T T T T T T T T T T T T T T T T T T T T T T T T T T T T T T T T
code: T T T T T T T T T T T T T T T T T T T T T T T T T T T T T T T T T T T T T T T T T T T T T T T T T T
code: T T T T T T T T T T T T T T T T T T T T T T T T T T T T T T T T T T T T T T T T T T T T T T T T T T
code: T T T T T T T T T T T T T T T T T T T T T T T T T T T T T T T T T T T T T T T T T T T T T T T T T
code:
code: #undef T
code: #define T "" "" "" "" "" "" "" "" "" "" "" "" "" "" "" "" "" "" "" "" "" "" "" "" "" "" "" "" "" "" "" "" "" "" "" "" "" "" "" "" "" "" "" "" "" "" "" "" "" "" "" "" "" "" "" "" "" "" "" "" "" "" "" "" "" "" "" "" "" "" "" "" "" "" "" "" "" "" "" "" "" "" "" "" "" "" "" "" "" "" "" "" "" "" "" "" "" "" "" "" "" "" "" "" "" "" "" "" "" "" "" "" "" "" "" "" "" "" "" "" "" "" "" "" "" "" "" "" "" "" "" "" "" "" "" "" "" "" "" "" "" "" "" "" "" "" "" "" "" "" "" "" "" "" "" "" "" "" "" "" "" "" "" "" "" "" "" "" "" "" "" "" "" "" "" "" "" "" "" "" "" "" "" "" "" "" "" "" "" "" "" "" "" "" "" "" "" "" "" "" "" "" "" "" "" "" "" "" "" "" "" "" "" "" "" "" "" "" "" "" "" "" "" "" "" "" "" "" "" "" "" "" "" "" "" "" "" "" "" "" "" "" "" "" "" "" "" "" "" "" "" "" "" "" "" "" "" "" "" "" "" "" "" "" "" "" "" "" "" "" "" "" "" "" "" "" "" "" "" "" "" "" "" "" "" "" "" "" "" "" "" "" "" "" "" "" "" "" "" "" "" "" "" "" "" "" "" "" "" "" "" "" "" "" "" "" "" "" "" "" "" "" "" "" "" "" "" "" "" "" "" "" "" "" "" "" "" "" "" "" "" "" "" "" "" "" "" "" "" "" "" "" "" "" "" "" "" "" "" "" "" "" "" "" "" "" "" "" "" "" "" "" "" "" "" "" "" "" "" "" "" "" "" "" "" "" "" "" "" "" "" "" "" "" "" "" "" "" "" "" "" "" "" "" "" "" "" "" "" "" "" "" "" "" "" "" "" "" "" "" "" "" "" "" "" "" "" "" "" "" "" "" "" "" "" "" "" "" "" "" "" "" "" "" "" "" "" "" "" "" "" "" "" "" "" "" "" "" "" "" "" "" "" "" "" "" "" "" "" "" "" "" "" "" "" "" "" "" "" "" "" "" "" "" "" "" "" "" "" "" "" "" "" "" "" "" "" "" "" "" "" "" "" "" "" "" "" "" "" "" "" "" "" "" "" "" "" "" "" "" "" "" "" "" "" "" "" "" "" "" "" "" "" "" "" "" "" "" "" "" "" "" "" "" "" "" "" "" "" "" "" "" "" "" "" "" "" "" "" "" "" "" "" "" "" "" "" "" "" "" "" "" "" "" "" "" "" "" "" "" "" "" "" "" "" "" "" "" "" "" "" "" "" "" "" "" "" "" "" "" "" "" "" "" "" "" "" "" "" "" "" "" "" "" "" "" "" "" "" "" "" "" "" "" "" "" "" "" "" "" "" "" "" "" "" "" "" "" "" "" "" "" "" "" "" "" "" "" "" "" "" "" "" "" "" "" "" "" "" "" "" "" "" "" "" "" "" "" "" "" "" "" "" "" "" "" "" "" "" "" "" "" "" "" "" "" "" "" "" "" "" "" "" "" "" "" "" "" "" "" "" "" "" "" "" "" "" "" "" "" "" "" "" "" "" "" "" "" "" "" "" "" "" "" "" "" "" "" "" "" "" "" "" "" "" "" "" "" "" "" "" "" "" "" "" "" "" "" "" "" "" "" "" "" "" "" "" "" "" "" "" "" "" "" "" "" "" "" "" "" "" "" "" "" "" "" "" "" "" "" "" "" "" "" "" "" "" "" "" "" "" "" "" "" "" "" "" "" "" "" "" "" "" "" "" "" "" "" "" "" "" "" "" "" "" "" "" "" "" "" "" "" "" "" "" "" "" "" "" "" "" "" "" "" "" "" "" "" "" "" "" "" "" "" "" "" "" "" "" "" "" "" "" "" "" "" "" "" "" "" "" "" "" "" "" "" "" "" "" "" "" "" "" "" "" "" "" "" "" "" "" "" "" "" "" "" "" "" "" "" "" "" "" "" "" "" "" "" "" "" "" "" "" "" "" "" "" "" "" "" "" "" "" "" "" "" "" "" "" "" "" "" "" "" "" "" "" "" "" "" "" "" "" "" "" "" "" "" "" "" "" "" "" "" "" "" "" "" "" "" "" "" "" "" "" "" "" "" "" "" "" "" "" "" "" "" "" "" "" "" "" "" "" "" "" "" "" "" "" "" "" "" "" "" "" "" "" "" "" "" "" "" "" "" "" "" "" "" "" ""
code: T
--- written
/t.c line 25: too many tokens
1 files, 1 faults

=== use_behind_the_most_texts
# 1000 uses of 999 texts, and one of nothing.
code: #define T "" "" "" "" "" "" "" "" "" "" "" "" "" "" "" "" "" "" "" "" "" "" "" "" "" "" "" "" "" "" "" "" "" "" "" "" "" "" "" "" "" "" "" "" "" "" "" "" "" "" "" "" "" "" "" "" "" "" "" "" "" "" "" "" "" "" "" "" "" "" "" "" "" "" "" "" "" "" "" "" "" "" "" "" "" "" "" "" "" "" "" "" "" "" "" "" "" "" "" "" "" "" "" "" "" "" "" "" "" "" "" "" "" "" "" "" "" "" "" "" "" "" "" "" "" "" "" "" "" "" "" "" "" "" "" "" "" "" "" "" "" "" "" "" "" "" "" "" "" "" "" "" "" "" "" "" "" "" "" "" "" "" "" "" "" "" "" "" "" "" "" "" "" "" "" "" "" "" "" "" "" "" "" "" "" "" "" "" "" "" "" "" "" "" "" "" "" "" "" "" "" "" "" "" "" "" "" "" "" "" "" "" "" "" "" "" "" "" "" "" "" "" "" "" "" "" "" "" "" "" "" "" "" "" "" "" "" "" "" "" "" "" "" "" "" "" "" "" "" "" "" "" "" "" "" "" "" "" "" "" "" "" "" "" "" "" "" "" "" "" "" "" "" "" "" "" "" "" "" "" "" "" "" "" "" "" "" "" "" "" "" "" "" "" "" "" "" "" "" "" "" "" "" "" "" "" "" "" "" "" "" "" "" "" "" "" "" "" "" "" "" "" "" "" "" "" "" "" "" "" "" "" "" "" "" "" "" "" "" "" "" "" "" "" "" "" "" "" "" "" "" "" "" "" "" "" "" "" "" "" "" "" "" "" "" "" "" "" "" "" "" "" "" "" "" "" "" "" "" "" "" "" "" "" "" "" "" "" "" "" "" "" "" "" "" "" "" "" "" "" "" "" "" "" "" "" "" "" "" "" "" "" "" "" "" "" "" "" "" "" "" "" "" "" "" "" "" "" "" "" "" "" "" "" "" "" "" "" "" "" "" "" "" "" "" "" "" "" "" "" "" "" "" "" "" "" "" "" "" "" "" "" "" "" "" "" "" "" "" "" "" "" "" "" "" "" "" "" "" "" "" "" "" "" "" "" "" "" "" "" "" "" "" "" "" "" "" "" "" "" "" "" "" "" "" "" "" "" "" "" "" "" "" "" "" "" "" "" "" "" "" "" "" "" "" "" "" "" "" "" "" "" "" "" "" "" "" "" "" "" "" "" "" "" "" "" "" "" "" "" "" "" "" "" "" "" "" "" "" "" "" "" "" "" "" "" "" "" "" "" "" "" "" "" "" "" "" "" "" "" "" "" "" "" "" "" "" "" "" "" "" "" "" "" "" "" "" "" "" "" "" "" "" "" "" "" "" "" "" "" "" "" "" "" "" "" "" "" "" "" "" "" "" "" "" "" "" "" "" "" "" "" "" "" "" "" "" "" "" "" "" "" "" "" "" "" "" "" "" "" "" "" "" "" "" "" "" "" "" "" "" "" "" "" "" "" "" "" "" "" "" "" "" "" "" "" "" "" "" "" "" "" "" "" "" "" "" "" "" "" "" "" "" "" "" "" "" "" "" "" "" "" "" "" "" "" "" "" "" "" "" "" "" "" "" "" "" "" "" "" "" "" "" "" "" "" "" "" "" "" "" "" "" "" "" "" "" "" "" "" "" "" "" "" "" "" "" "" "" "" "" "" "" "" "" "" "" "" "" "" "" "" "" "" "" "" "" "" "" "" "" "" "" "" "" "" "" "" "" "" "" "" "" "" "" "" "" "" "" "" "" "" "" "" "" "" "" "" "" "" "" "" "" "" "" "" "" "" "" "" "" "" "" "" "" "" "" "" "" "" "" "" "" "" "" "" "" "" "" "" "" "" "" "" "" "" "" "" "" "" "" "" "" "" "" "" "" "" "" "" "" "" "" "" "" "" "" "" "" "" "" "" "" "" "" "" "" "" "" "" "" "" "" "" "" "" "" "" "" "" "" "" "" "" "" "" "" "" "" "" "" "" "" "" "" "" "" "" "" "" "" "" "" "" "" "" "" "" "" "" "" "" "" "" "" "" "" "" "" "" "" "" "" "" "" "" "" "" "" "" "" "" "" "" "" "" "" "" "" "" "" "" "" "" "" "" "" "" "" "" "" "" "" "" "" "" "" "" "" "" "" "" "" "" "" "" "" "" "" "" "" "" "" "" "" "" "" "" "" "" "" "" "" "" "" "" "" "" "" "" "" "" "" "" "" "" "" "" ""
code: T T T T T T T T T T T T T T T T T T T T T T T T T T T T T T T T T T T T T T T T T T T T T T T T T T
code: T T T T T T T T T T T T T T T T T T T T T T T T T T T T T T T T T T T T T T T T T T T T T T T T T T
code: T T T T T T T T T T T T T T T T T T T T T T T T T T T T T T T T T T T T T T T T T T T T T T T T T T
code: T T T T T T T T T T T T T T T T T T T T T T T T T T T T T T T T T T T T T T T T T T T T T T T T T T
code: T T T T T T T T T T T T T T T T T T T T T T T T T T T T T T T T T T T T T T T T T T T T T T T T T T
code: T T T T T T T T T T T T T T T T T T T T T T T T T T T T T T T T T T T T T T T T T T T T T T T T T T
code: T T T T T T T T T T T T T T T T T T T T T T T T T T T T T T T T T T T T T T T T T T T T T T T T T T
code: T T T T T T T T T T T T T T T T T T T T T T T T T T T T T T T T T T T T T T T T T T T T T T T T T T
code: T T T T T T T T T T T T T T T T T T T T T T T T T T T T T T T T T T T T T T T T T T T T T T T T T T
code: T T T T T T T T T T T T T T T T T T T T T T T T T T T T T T T T T T T T T T T T T T T T T T T T T T
code: T T T T T T T T T T T T T T T T T T T T T T T T T T T T T T T T T T T T T T T T T T T T T T T T T T
code: T T T T T T T T T T T T T T T T T T T T T T T T T T T T T T T T T T T T T T T T T T T T T T T T T T
code: T T T T T T T T T T T T T T T T T T T T T T T T T T T T T T T T T T T T T T T T T T T T T T T T T T
code: T T T T T T T T T T T T T T T T T T T T T T T T T T T T T T T T T T T T T T T T T T T T T T T T T T
code: T T T T T T T T T T T T T T T T T T T T T T T T T T T T T T T T T T T T T T T T T T T T T T T T T T
code: T T T T T T T T T T T T T T T T T T T T T T T T T T T T T T T T T T T T T T T T T T T T T T T T T T
code: T T T T T T T T T T T T T T T T T T T T T T T T T T T T T T T T T T T T T T T T T T T T T T T T T T
code: T T T T T T T T T T T T T T T T T T T T T T T T T T T T T T T T T T T T T T T T T T T T T T T T T T
code: T T T T T T T T T T T T T T T T T T T T T T T T T T T T T T T T T T T T T T T T T T T T T T T T T T
code: T T T T T T T T T T T T T T T T T T T T T T T T T T T T T T T T T T T T T T T T T T T T T T T T T T
code: #define E
code:
code: E
--- written
/t.c line 24: too many tokens
1 files, 1 faults

=== text_too_long
# Neighbouring texts of 100000 code points and one more: the fault stands at the first of them.
code: #define A "0123456789"
code: #define B A A A A A A A A A A
code: #define C B B B B B B B B B B
code: #define D C C C C C C C C C C
code: string s =
code: D D D D D D D D D D
code: "x";
--- written
/t.c line 6: bad token
1 files, 1 faults

=== text_of_wide_letters_too_long
# Code points are counted, not bytes.
code: #define A "éééééééééé"
code: #define B A A A A A A A A A A
code: #define C B B B B B B B B B B
code: #define D C C C C C C C C C C
code: string s =
code: D D D D D D
code: D D D D
code: "x";
--- written
/t.c line 6: bad token
1 files, 1 faults
