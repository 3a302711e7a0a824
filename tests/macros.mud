# What macros expand to. A row is the file /t, whose function `t` gives what it has to show; the master writes it as `%O`
# spells it. Where a name is to stay as it is, it is that of a variable or of a function too.
--- /t.c
@@
--- /secure/master.c
object connect() { return this_object(); }
int logon() { write(sprintf("%O", load_object("/t")->t())); return 1; }
--- play
connect 1
end

=== inside_its_own_expansion
# A name stays as it is inside its own expansion, also in an argument that was expanded before; and so does the name of a
# macro with parameters where no parenthesis follows.
code: int F = 7;
code: string F(string s) { return "<" + s + ">"; }
code: #define F(x) x + F(x)
code: mixed t() { return ({ F(F("1")), F }); }
gives: "({ \"1<1><1<1>>\", 7 })"

=== name_of_another_macro
# What comes out is read again, with what follows: also over the end of a line.
code: #define A F
code: #define F(x) ({ x })
code: mixed t() { return A(2) + A
code: (3); }
gives: "({ 2, 3 })"

=== directives_in_arguments
# Directives among the arguments are carried out, and parentheses nest. The macro that is used stays what it was.
code: int F(int x) { return x + 1; }
code: #define F(x, y) ({ x, y, X })
code: mixed t() { return F(1,
code: #define X 7
code: #undef F
code: (2, 3)) + ({ X, F(8) }); }
gives: "({ 1, 3, 7, 7, 9 })"

=== arguments_of_an_included_file
# An argument may begin in an included file and end behind it.
code: #define F(x) ({ x })
code: mixed t() { return
code: #include "b.h"
code: 2) + ({ 3 }); }
--- /b.h
({ 1 }) + F(5 +
--- written
to 1: "({ 1, 7, 3 })"
end

=== lines_of_uses
# What a macro puts in has the line of its use; an argument is expanded in the line in which it stands.
code: #define L __LINE__
code: #define F(x) ({ x, L })
code: mixed t() { return F(
code: __LINE__
code: ) + ({ L,
code: L }); }
gives: "({ 4, 3, 5, 6 })"

=== file_and_folder
# The names of the file and of its folder, which are texts, and so one text beside one another.
code: mixed t() { return ({ __FILE__, __DIR__, __FILE__ __DIR__ }) + load_object("/d/e/u")->t(); }
--- /d/e/u.c
mixed t() { return ({ __FILE__, __DIR__ }); }
--- written
to 1: "({ \"/t.c\", \"/\", \"/t.c/\", \"/d/e/u.c\", \"/d/e/\" })"
end

=== defined_at_first
# Three names are defined at first. They may be undefined.
code: #undef LPC3
code: int LPC3 = 9;
code: mixed t() { return ({ __VERSION__, __LDMUD__, LPC3 }); }
gives: "({ \"3.6\", 1, 9 })"

=== profile
# LPC3 is 1.
code: mixed t() { return LPC3; }
gives: "1"

=== joined_texts
# Neighbouring texts are one, over macros, lines and included files.
code: #define T "b"
code: mixed t() { return "a" T
code: #include "h"
code: "d"; }
--- /h
"c"
--- written
to 1: "\"abcd\""
end

=== space_before_the_parenthesis
# A line that is joined to the next is no space, so that F has a parameter. G has none.
code: #define F\
code: (x) ({ x })
code: #define G (x)
code: mixed t() { int x = 2; return F(1) + ({ G }); }
gives: "({ 1, 2 })"

=== comment_before_the_parenthesis
# A comment is one.
code: #define G/**/(x)
code: mixed t() { int x = 2; return ({ G }); }
gives: "({ 2 })"

=== hidden_names
# The first macro gives a name that gives the first one again, which stays as it is: also where its arguments follow
# behind the use.
code: int f(int x) { return x + 100; }
code: #define f(a) a * g
code: #define g f
code: mixed t() { return f(2)(9); }
gives: "218"

=== same_body_again
# A macro may be defined again with the same tokens; what stands between them is no matter.
code: #define A(x) x + 1
code: #define A(x)   x + /* same */ 1
code: mixed t() { return A(2); }
gives: "3"

=== empty_body
# A macro may stand for nothing.
code: #define E
code: mixed t() { return E 3 E; }
gives: "3"

=== empty_arguments
# No argument, empty arguments, and a name without arguments.
code: int G = 3, g = 4;
code: #define G() g
code: #define H(x, y) x|y
code: mixed t() { return ({ G(), 1 H(,) 2, H(4,) 1, 1 H(,8), G }); }
gives: "({ 4, 3, 5, 9, 3 })"

=== one_empty_argument
# A macro of one parameter takes nothing as an empty argument.
code: #define F(x) ({ x })
code: mixed t() { return F() + F(1); }
gives: "({ 1 })"

=== depth_of_uses
# 64 macros, each of which stands for the next.
code: #define M0 M1
code: #define M1 M2
code: #define M2 M3
code: #define M3 M4
code: #define M4 M5
code: #define M5 M6
code: #define M6 M7
code: #define M7 M8
code: #define M8 M9
code: #define M9 M10
code: #define M10 M11
code: #define M11 M12
code: #define M12 M13
code: #define M13 M14
code: #define M14 M15
code: #define M15 M16
code: #define M16 M17
code: #define M17 M18
code: #define M18 M19
code: #define M19 M20
code: #define M20 M21
code: #define M21 M22
code: #define M22 M23
code: #define M23 M24
code: #define M24 M25
code: #define M25 M26
code: #define M26 M27
code: #define M27 M28
code: #define M28 M29
code: #define M29 M30
code: #define M30 M31
code: #define M31 M32
code: #define M32 M33
code: #define M33 M34
code: #define M34 M35
code: #define M35 M36
code: #define M36 M37
code: #define M37 M38
code: #define M38 M39
code: #define M39 M40
code: #define M40 M41
code: #define M41 M42
code: #define M42 M43
code: #define M43 M44
code: #define M44 M45
code: #define M45 M46
code: #define M46 M47
code: #define M47 M48
code: #define M48 M49
code: #define M49 M50
code: #define M50 M51
code: #define M51 M52
code: #define M52 M53
code: #define M53 M54
code: #define M54 M55
code: #define M55 M56
code: #define M56 M57
code: #define M57 M58
code: #define M58 M59
code: #define M59 M60
code: #define M60 M61
code: #define M61 M62
code: #define M62 M63
code: #define M63 M64
code: int M64 = 7;
code: mixed t() { return ({ M0, M1 }); }
gives: "({ 7, 7 })"

=== depth_of_arguments
# 64 uses in the arguments of one another.
code: #define I(x) x
code: mixed t() { return I(I(I(I(I(I(I(I(I(I(I(I(I(I(I(I(I(I(I(I(I(I(I(I(I(I(I(I(I(I(I(I(I(I(I(I(I(I(I(I(I(I(I(I(I(I(I(I(I(I(I(I(I(I(I(I(I(I(I(I(I(I(I(I(1)))))))))))))))))))))))))))))))))))))))))))))))))))))))))))))))); }
gives: "1"

=== longest_text
# A text of 100000 code points, of a thousand texts.
code: #define A "0123456789"
code: #define B A A A A A A A A A A
code: #define C B B B B B B B B B B
code: #define D C C C C C C C C C C
code: mixed t() { return strlen(D D D D D D D D D D); }
gives: "100000"

=== longest_text_of_wide_letters
# Code points are counted, not bytes: 60000 and 40000 of two bytes each, and nothing behind them.
code: #define A "éééééééééé"
code: #define B A A A A A A A A A A
code: #define C B B B B B B B B B B
code: #define D C C C C C C C C C C
code: mixed t() { return strlen(D D D D D D
code: D D D D ""
code:  "" ); }
gives: "100000"

=== most_uses
# Each use counts one, and each token that it puts in: 222221 for each F and 22221 for each D, which are 1000000 with 11
# uses of the empty macro.
code: #define E
code: #define A E E E E E E E E E E
code: #define B A A A A A A A A A A
code: #define C B B B B B B B B B B
code: #define D C C C C C C C C C C
code: #define F D D D D D D D D D D
code: mixed t() { return 1; }
code: F F F F
code: D D D D D
code: E E E E E E E E E E E
gives: "1"

=== most_texts_put_in
# Texts that are one in the end count by themselves: 1000 uses of 999 texts.
code: #define T "" "" "" "" "" "" "" "" "" "" "" "" "" "" "" "" "" "" "" "" "" "" "" "" "" "" "" "" "" "" "" "" "" "" "" "" "" "" "" "" "" "" "" "" "" "" "" "" "" "" "" "" "" "" "" "" "" "" "" "" "" "" "" "" "" "" "" "" "" "" "" "" "" "" "" "" "" "" "" "" "" "" "" "" "" "" "" "" "" "" "" "" "" "" "" "" "" "" "" "" "" "" "" "" "" "" "" "" "" "" "" "" "" "" "" "" "" "" "" "" "" "" "" "" "" "" "" "" "" "" "" "" "" "" "" "" "" "" "" "" "" "" "" "" "" "" "" "" "" "" "" "" "" "" "" "" "" "" "" "" "" "" "" "" "" "" "" "" "" "" "" "" "" "" "" "" "" "" "" "" "" "" "" "" "" "" "" "" "" "" "" "" "" "" "" "" "" "" "" "" "" "" "" "" "" "" "" "" "" "" "" "" "" "" "" "" "" "" "" "" "" "" "" "" "" "" "" "" "" "" "" "" "" "" "" "" "" "" "" "" "" "" "" "" "" "" "" "" "" "" "" "" "" "" "" "" "" "" "" "" "" "" "" "" "" "" "" "" "" "" "" "" "" "" "" "" "" "" "" "" "" "" "" "" "" "" "" "" "" "" "" "" "" "" "" "" "" "" "" "" "" "" "" "" "" "" "" "" "" "" "" "" "" "" "" "" "" "" "" "" "" "" "" "" "" "" "" "" "" "" "" "" "" "" "" "" "" "" "" "" "" "" "" "" "" "" "" "" "" "" "" "" "" "" "" "" "" "" "" "" "" "" "" "" "" "" "" "" "" "" "" "" "" "" "" "" "" "" "" "" "" "" "" "" "" "" "" "" "" "" "" "" "" "" "" "" "" "" "" "" "" "" "" "" "" "" "" "" "" "" "" "" "" "" "" "" "" "" "" "" "" "" "" "" "" "" "" "" "" "" "" "" "" "" "" "" "" "" "" "" "" "" "" "" "" "" "" "" "" "" "" "" "" "" "" "" "" "" "" "" "" "" "" "" "" "" "" "" "" "" "" "" "" "" "" "" "" "" "" "" "" "" "" "" "" "" "" "" "" "" "" "" "" "" "" "" "" "" "" "" "" "" "" "" "" "" "" "" "" "" "" "" "" "" "" "" "" "" "" "" "" "" "" "" "" "" "" "" "" "" "" "" "" "" "" "" "" "" "" "" "" "" "" "" "" "" "" "" "" "" "" "" "" "" "" "" "" "" "" "" "" "" "" "" "" "" "" "" "" "" "" "" "" "" "" "" "" "" "" "" "" "" "" "" "" "" "" "" "" "" "" "" "" "" "" "" "" "" "" "" "" "" "" "" "" "" "" "" "" "" "" "" "" "" "" "" "" "" "" "" "" "" "" "" "" "" "" "" "" "" "" "" "" "" "" "" "" "" "" "" "" "" "" "" "" "" "" "" "" "" "" "" "" "" "" "" "" "" "" "" "" "" "" "" "" "" "" "" "" "" "" "" "" "" "" "" "" "" "" "" "" "" "" "" "" "" "" "" "" "" "" "" "" "" "" "" "" "" "" "" "" "" "" "" "" "" "" "" "" "" "" "" "" "" "" "" "" "" "" "" "" "" "" "" "" "" "" "" "" "" "" "" "" "" "" "" "" "" "" "" "" "" "" "" "" "" "" "" "" "" "" "" "" "" "" "" "" "" "" "" "" "" "" "" "" "" "" "" "" "" "" "" "" "" "" "" "" "" "" "" "" "" "" "" "" "" "" "" "" "" "" "" "" "" "" "" "" "" "" "" "" "" "" "" "" "" "" "" "" "" "" "" "" "" "" "" "" "" "" "" "" "" "" "" "" "" "" "" "" "" "" "" "" "" "" "" "" "" "" "" "" "" "" "" "" "" "" "" "" "" "" "" "" "" "" "" "" "" "" "" "" "" "" "" "" "" "" "" "" "" "" "" "" "" "" "" "" "" "" "" "" "" "" "" "" "" "" "" "" "" "" "" "" "" "" "" "" "" "" "" "" "" "" "" "" "" "" "" "" "" "" "" "" "" "" "" "" "" "" "" "" "" "" "" "" "" "" "" "" "" "" "" "" "" "" "" "" "" "" "" "" "" "" "" "" "" "" "" "" "" "" "" "" "" "" "" "" "" "" "" "" "" "" "" "" "" "" "" "" "" "" "" "" "" "" "" "" "" "" "" "" "" "" "" "" "" "" "" "" "" "" "" "" "" "" "" "" "" ""
code: mixed t() { return
code: T T T T T T T T T T T T T T T T T T T T T T T T T T T T T T T T T T T T T T T T T T T T T T T T T T
code: T T T T T T T T T T T T T T T T T T T T T T T T T T T T T T T T T T T T T T T T T T T T T T T T T T
code: T T T T T T T T T T T T T T T T T T T T T T T T T T T T T T T T T T T T T T T T T T T T T T T T T T
code: T T T T T T T T T T T T T T T T T T T T T T T T T T T T T T T T T T T T T T T T T T T T T T T T T T
code: T T T T T T T T T T T T T T T T T T T T T T T T T T T T T T T T T T T T T T T T T T T T T T T T T T
code: T T T T T T T T T T T T T T T T T T T T T T T T T T T T T T T T T T T T T T T T T T T T T T T T T T
code: T T T T T T T T T T T T T T T T T T T T T T T T T T T T T T T T T T T T T T T T T T T T T T T T T T
code: T T T T T T T T T T T T T T T T T T T T T T T T T T T T T T T T T T T T T T T T T T T T T T T T T T
code: T T T T T T T T T T T T T T T T T T T T T T T T T T T T T T T T T T T T T T T T T T T T T T T T T T
code: T T T T T T T T T T T T T T T T T T T T T T T T T T T T T T T T T T T T T T T T T T T T T T T T T T
code: T T T T T T T T T T T T T T T T T T T T T T T T T T T T T T T T T T T T T T T T T T T T T T T T T T
code: T T T T T T T T T T T T T T T T T T T T T T T T T T T T T T T T T T T T T T T T T T T T T T T T T T
code: T T T T T T T T T T T T T T T T T T T T T T T T T T T T T T T T T T T T T T T T T T T T T T T T T T
code: T T T T T T T T T T T T T T T T T T T T T T T T T T T T T T T T T T T T T T T T T T T T T T T T T T
code: T T T T T T T T T T T T T T T T T T T T T T T T T T T T T T T T T T T T T T T T T T T T T T T T T T
code: T T T T T T T T T T T T T T T T T T T T T T T T T T T T T T T T T T T T T T T T T T T T T T T T T T
code: T T T T T T T T T T T T T T T T T T T T T T T T T T T T T T T T T T T T T T T T T T T T T T T T T T
code: T T T T T T T T T T T T T T T T T T T T T T T T T T T T T T T T T T T T T T T T T T T T T T T T T T
code: T T T T T T T T T T T T T T T T T T T T T T T T T T T T T T T T T T T T T T T T T T T T T T T T T T
code: T T T T T T T T T T T T T T T T T T T T T T T T T T T T T T T T T T T T T T T T T T T T T T T T T T
code: ; }
gives: "\"\""

=== most_tokens
# 200000 tokens are the most: these are 20 and 199980 statements of nothing.
code: #define A ;;;;;;;;;;
code: #define B A A A A A A A A A A
code: #define C B B B B B B B B B B
code: #define D C C C C C C C C C C
code: mixed t() {
code: D D D D D D D D D D D D D D D D D D D C C C C C C C C C B B B B B B B B B A A A A A A A A
code: int i; i = 1; i = i; return i; }
gives: "1"
