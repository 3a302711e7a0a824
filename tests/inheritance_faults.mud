# Faults that a file has by what it inherits: functions that may not be masked, parents that may not be inherited, paths
# that mean more than one parent, and too many names, arguments and parts. Of one file the first of these faults is
# told. What inherited functions and variables do is shown in inheritance.mud.
words: check

=== nomask_by_the_child
# A function that may not be masked, masked by the child.
--- /n.c
nomask int f() { return 1; }
--- /m.c
inherit "/n";
int f() { return 2; }
--- written
/m.c line 2: nomask function overridden
2 files, 1 faults

=== nomask_by_one_further_away
# By one that is further away.
--- /n.c
nomask int f() { return 1; }
--- /m.c
inherit "/n";
--- /l.c
inherit "/m";
f() { }
--- written
/l.c line 2: nomask function overridden
3 files, 1 faults

=== nomask_before_another_parent
# It stands beside a function of another parent: the fault stands at the later inherit.
--- /n.c
nomask int f() { return 1; }
--- /b.c
f() { }
--- /c.c
inherit "/n";
inherit "/b";
--- written
/c.c line 2: nomask function overridden
3 files, 1 faults

=== nomask_behind_another_parent
# Also where the other parent stands before it.
--- /n.c
nomask int f() { return 1; }
--- /b.c
f() { }
--- /c.c
inherit "/b";
inherit "/n";
--- written
/c.c line 2: nomask function overridden
3 files, 1 faults

=== nomask_behind_two_parents
# With one between.
--- /n.c
nomask int f() { return 1; }
--- /b.c
f() { }
--- /g.c
g() { }
--- /c.c
inherit "/b"; inherit "/g";
inherit "/n";
--- written
/c.c line 2: nomask function overridden
4 files, 1 faults

=== nomask_and_another_name
# A function of another name masks nothing.
--- /n.c
nomask int f() { return 1; }
--- /m.c
inherit "/n";
g() { }
--- written
2 files, 0 faults

=== nomask_and_a_prototype
# A prototype masks nothing.
--- /n.c
nomask int f() { return 1; }
--- /m.c
inherit "/n";
int f();
--- written
2 files, 0 faults

=== nomask_prototype
# And a prototype cannot be masked.
--- /n.c
nomask int f();
--- /m.c
inherit "/n";
int f() { return 2; }
--- written
2 files, 0 faults

=== private_nomask
# A private one forbids nothing to a child.
--- /n.c
private nomask f() { }
--- /m.c
inherit "/n";
f() { }
--- written
2 files, 0 faults

=== private_nomask_beside_another
# Nor beside another.
--- /n.c
private nomask f() { }
--- /o.c
f() { }
--- /m.c
inherit "/n";
inherit "/o";
--- written
3 files, 0 faults

=== nomask_of_the_child
# The child may have one.
--- /n.c
f() { }
--- /m.c
inherit "/n";
nomask f() { }
--- written
2 files, 0 faults

=== nomask_beside_a_private_one
# It stands beside what is not seen.
--- /n.c
nomask int f() { return 1; }
--- /b.c
private f() { }
--- /c.c
inherit "/n";
inherit "/b";
--- written
3 files, 0 faults

=== nomask_beside_a_prototype
# It stands beside a prototype.
--- /n.c
nomask int f() { return 1; }
--- /b.c
f();
--- /c.c
inherit "/n";
inherit "/b";
--- written
3 files, 0 faults

=== nomask_from_two_sides
# It stands beside itself: both parents have it from one version of a file.
--- /n.c
nomask int f() { return 1; }
--- /b.c
inherit "/n";
--- /c.c
inherit "/n";
--- /d.c
inherit "/b";
inherit "/c";
--- written
4 files, 0 faults

=== no_inherit
# A parent whose pragma is no_inherit. The fault stands at the first token of the inherit.
--- /closed.c
f() { }
#pragma no_inherit
--- /b.c
g();

inherit
"/closed";
--- written
/b.c line 3: not inheritable
2 files, 1 faults

=== ambiguous_path
# A path that two parents end in. The fault stands at the first token of the call.
--- /x/p.c
f() { }
--- /y/p.c
f() { }
--- /b.c
inherit "/x/p";
inherit "/y/p";
g() {
return
"p"
::f();
}
--- written
/b.c line 5: ambiguous parent
3 files, 1 faults

=== ambiguous_path_in_a_variable
# In the initialiser of a variable too.
--- /x/p.c
f() { }
--- /y/p.c
f() { }
--- /b.c
inherit "/x/p";
inherit "/y/p";
int a = 1,
b = "p"::f();
--- written
/b.c line 4: ambiguous parent
3 files, 1 faults

=== one_path_twice
# Two inherits of one path.
--- /x/p.c
f() { }
--- /b.c
inherit "/x/p";
inherit "/x/p";
g() {
"/x/p"::f(); }
--- written
/b.c line 4: ambiguous parent
2 files, 1 faults

=== longer_paths
# More of a path tells them apart.
--- /x/p.c
f() { }
--- /y/p.c
f() { }
--- /b.c
inherit "/x/p";
inherit "/y/p";
g() { "/x/p"::f(); "y/p"::f(); }
--- written
3 files, 0 faults

=== part_of_a_word
# A part of a word is no path, and `::` alone names no parent.
--- /x/p.c
f() { }
--- /xp.c
f() { }
--- /b.c
inherit "/x/p";
inherit "/xp";
g() { "p"::f(); ::f(); }
--- written
3 files, 0 faults

=== masked_before_closed
# Of several faults the one is told whose token comes first: an inherit beside what may not be masked and which may not
# be inherited at the same token.
--- /closed.c
f() { }
#pragma no_inherit
--- /n.c
nomask f() { }
--- /b.c
inherit "/n";
inherit "/closed";
--- written
/b.c line 2: nomask function overridden
3 files, 1 faults

=== closed_before_masked
# Which of two inherits comes first.
--- /closed.c
f() { }
#pragma no_inherit
--- /n.c
nomask f() { }
--- /b.c
inherit "/closed";
inherit "/n";
--- written
/b.c line 1: not inheritable
3 files, 1 faults

=== head_before_its_calls
# The head of a function comes before its calls.
--- /n.c
nomask h() { }
--- /x/p.c
f() { }
--- /y/p.c
f() { }
--- /b.c
inherit "/n";
inherit "/x/p";
inherit "/y/p";
h() {
"p"::f(); }
--- written
/b.c line 4: nomask function overridden
4 files, 1 faults

=== earlier_function
# And an earlier function before a later one.
--- /n.c
nomask h() { }
--- /x/p.c
f() { }
--- /y/p.c
f() { }
--- /b.c
inherit "/n";
inherit "/x/p";
inherit "/y/p";
g() {
"p"::f(); }
h() { }
--- written
/b.c line 5: ambiguous parent
4 files, 1 faults

=== most_parameters
# A function has at most 255 parameters. The fault stands at its first token. Here are 255.
--- /a.c
int g();
f(a,a2,a3,a4,a5,a6,a7,a8,a9,a10,a11,a12,a13,a14,a15,a16,a17,a18,a19,a20,a21,a22,a23,a24,a25,a26,a27,a28,a29,a30,a31,a32,a33,a34,a35,a36,a37,a38,a39,a40,a41,a42,a43,a44,a45,a46,a47,a48,a49,a50,a51,a52,a53,a54,a55,a56,a57,a58,a59,a60,a61,a62,a63,a64,a65,a66,a67,a68,a69,a70,a71,a72,a73,a74,a75,a76,a77,a78,a79,a80,a81,a82,a83,a84,a85,a86,a87,a88,a89,a90,a91,a92,a93,a94,a95,a96,a97,a98,a99,a100,a101,a102,a103,a104,a105,a106,a107,a108,a109,a110,a111,a112,a113,a114,a115,a116,a117,a118,a119,a120,a121,a122,a123,a124,a125,a126,a127,a128,a129,a130,a131,a132,a133,a134,a135,a136,a137,a138,a139,a140,a141,a142,a143,a144,a145,a146,a147,a148,a149,a150,a151,a152,a153,a154,a155,a156,a157,a158,a159,a160,a161,a162,a163,a164,a165,a166,a167,a168,a169,a170,a171,a172,a173,a174,a175,a176,a177,a178,a179,a180,a181,a182,a183,a184,a185,a186,a187,a188,a189,a190,a191,a192,a193,a194,a195,a196,a197,a198,a199,a200,a201,a202,a203,a204,a205,a206,a207,a208,a209,a210,a211,a212,a213,a214,a215,a216,a217,a218,a219,a220,a221,a222,a223,a224,a225,a226,a227,a228,a229,a230,a231,a232,a233,a234,a235,a236,a237,a238,a239,a240,a241,a242,a243,a244,a245,a246,a247,a248,a249,a250,a251,a252,a253,a254,a255) { }
--- written
1 files, 0 faults

=== too_many_parameters
# A function has at most 255 parameters. The fault stands at its first token. Here are 256.
--- /a.c
int g();
f(a,a2,a3,a4,a5,a6,a7,a8,a9,a10,a11,a12,a13,a14,a15,a16,a17,a18,a19,a20,a21,a22,a23,a24,a25,a26,a27,a28,a29,a30,a31,a32,a33,a34,a35,a36,a37,a38,a39,a40,a41,a42,a43,a44,a45,a46,a47,a48,a49,a50,a51,a52,a53,a54,a55,a56,a57,a58,a59,a60,a61,a62,a63,a64,a65,a66,a67,a68,a69,a70,a71,a72,a73,a74,a75,a76,a77,a78,a79,a80,a81,a82,a83,a84,a85,a86,a87,a88,a89,a90,a91,a92,a93,a94,a95,a96,a97,a98,a99,a100,a101,a102,a103,a104,a105,a106,a107,a108,a109,a110,a111,a112,a113,a114,a115,a116,a117,a118,a119,a120,a121,a122,a123,a124,a125,a126,a127,a128,a129,a130,a131,a132,a133,a134,a135,a136,a137,a138,a139,a140,a141,a142,a143,a144,a145,a146,a147,a148,a149,a150,a151,a152,a153,a154,a155,a156,a157,a158,a159,a160,a161,a162,a163,a164,a165,a166,a167,a168,a169,a170,a171,a172,a173,a174,a175,a176,a177,a178,a179,a180,a181,a182,a183,a184,a185,a186,a187,a188,a189,a190,a191,a192,a193,a194,a195,a196,a197,a198,a199,a200,a201,a202,a203,a204,a205,a206,a207,a208,a209,a210,a211,a212,a213,a214,a215,a216,a217,a218,a219,a220,a221,a222,a223,a224,a225,a226,a227,a228,a229,a230,a231,a232,a233,a234,a235,a236,a237,a238,a239,a240,a241,a242,a243,a244,a245,a246,a247,a248,a249,a250,a251,a252,a253,a254,a255,a256) { }
--- written
/a.c line 2: too many names
1 files, 1 faults

=== most_parameters_of_a_prototype
# So has a prototype. Here are 255.
--- /a.c
int g();
f(a,a2,a3,a4,a5,a6,a7,a8,a9,a10,a11,a12,a13,a14,a15,a16,a17,a18,a19,a20,a21,a22,a23,a24,a25,a26,a27,a28,a29,a30,a31,a32,a33,a34,a35,a36,a37,a38,a39,a40,a41,a42,a43,a44,a45,a46,a47,a48,a49,a50,a51,a52,a53,a54,a55,a56,a57,a58,a59,a60,a61,a62,a63,a64,a65,a66,a67,a68,a69,a70,a71,a72,a73,a74,a75,a76,a77,a78,a79,a80,a81,a82,a83,a84,a85,a86,a87,a88,a89,a90,a91,a92,a93,a94,a95,a96,a97,a98,a99,a100,a101,a102,a103,a104,a105,a106,a107,a108,a109,a110,a111,a112,a113,a114,a115,a116,a117,a118,a119,a120,a121,a122,a123,a124,a125,a126,a127,a128,a129,a130,a131,a132,a133,a134,a135,a136,a137,a138,a139,a140,a141,a142,a143,a144,a145,a146,a147,a148,a149,a150,a151,a152,a153,a154,a155,a156,a157,a158,a159,a160,a161,a162,a163,a164,a165,a166,a167,a168,a169,a170,a171,a172,a173,a174,a175,a176,a177,a178,a179,a180,a181,a182,a183,a184,a185,a186,a187,a188,a189,a190,a191,a192,a193,a194,a195,a196,a197,a198,a199,a200,a201,a202,a203,a204,a205,a206,a207,a208,a209,a210,a211,a212,a213,a214,a215,a216,a217,a218,a219,a220,a221,a222,a223,a224,a225,a226,a227,a228,a229,a230,a231,a232,a233,a234,a235,a236,a237,a238,a239,a240,a241,a242,a243,a244,a245,a246,a247,a248,a249,a250,a251,a252,a253,a254,a255);
--- written
1 files, 0 faults

=== too_many_parameters_of_a_prototype
# So has a prototype. Here are 256.
--- /a.c
int g();
f(a,a2,a3,a4,a5,a6,a7,a8,a9,a10,a11,a12,a13,a14,a15,a16,a17,a18,a19,a20,a21,a22,a23,a24,a25,a26,a27,a28,a29,a30,a31,a32,a33,a34,a35,a36,a37,a38,a39,a40,a41,a42,a43,a44,a45,a46,a47,a48,a49,a50,a51,a52,a53,a54,a55,a56,a57,a58,a59,a60,a61,a62,a63,a64,a65,a66,a67,a68,a69,a70,a71,a72,a73,a74,a75,a76,a77,a78,a79,a80,a81,a82,a83,a84,a85,a86,a87,a88,a89,a90,a91,a92,a93,a94,a95,a96,a97,a98,a99,a100,a101,a102,a103,a104,a105,a106,a107,a108,a109,a110,a111,a112,a113,a114,a115,a116,a117,a118,a119,a120,a121,a122,a123,a124,a125,a126,a127,a128,a129,a130,a131,a132,a133,a134,a135,a136,a137,a138,a139,a140,a141,a142,a143,a144,a145,a146,a147,a148,a149,a150,a151,a152,a153,a154,a155,a156,a157,a158,a159,a160,a161,a162,a163,a164,a165,a166,a167,a168,a169,a170,a171,a172,a173,a174,a175,a176,a177,a178,a179,a180,a181,a182,a183,a184,a185,a186,a187,a188,a189,a190,a191,a192,a193,a194,a195,a196,a197,a198,a199,a200,a201,a202,a203,a204,a205,a206,a207,a208,a209,a210,a211,a212,a213,a214,a215,a216,a217,a218,a219,a220,a221,a222,a223,a224,a225,a226,a227,a228,a229,a230,a231,a232,a233,a234,a235,a236,a237,a238,a239,a240,a241,a242,a243,a244,a245,a246,a247,a248,a249,a250,a251,a252,a253,a254,a255,a256);
--- written
/a.c line 2: too many names
1 files, 1 faults

=== most_arguments
# A call has at most 255 arguments. The fault stands at the call. Here are 255.
--- /a.c
f() {
g(1,1,1,1,1,1,1,1,1,1,1,1,1,1,1,1,1,1,1,1,1,1,1,1,1,1,1,1,1,1,1,1,1,1,1,1,1,1,1,1,1,1,1,1,1,1,1,1,1,1,1,1,1,1,1,1,1,1,1,1,1,1,1,1,1,1,1,1,1,1,1,1,1,1,1,1,1,1,1,1,1,1,1,1,1,1,1,1,1,1,1,1,1,1,1,1,1,1,1,1,1,1,1,1,1,1,1,1,1,1,1,1,1,1,1,1,1,1,1,1,1,1,1,1,1,1,1,1,1,1,1,1,1,1,1,1,1,1,1,1,1,1,1,1,1,1,1,1,1,1,1,1,1,1,1,1,1,1,1,1,1,1,1,1,1,1,1,1,1,1,1,1,1,1,1,1,1,1,1,1,1,1,1,1,1,1,1,1,1,1,1,1,1,1,1,1,1,1,1,1,1,1,1,1,1,1,1,1,1,1,1,1,1,1,1,1,1,1,1,1,1,1,1,1,1,1,1,1,1,1,1,1,1,1,1,1,1,1,1,1,1,1,1,1,1,1,1,1,1,1,1,1,1,1,1); } g() { }
--- written
1 files, 0 faults

=== too_many_arguments
# A call has at most 255 arguments. The fault stands at the call. Here are 256.
--- /a.c
f() {
g(1,1,1,1,1,1,1,1,1,1,1,1,1,1,1,1,1,1,1,1,1,1,1,1,1,1,1,1,1,1,1,1,1,1,1,1,1,1,1,1,1,1,1,1,1,1,1,1,1,1,1,1,1,1,1,1,1,1,1,1,1,1,1,1,1,1,1,1,1,1,1,1,1,1,1,1,1,1,1,1,1,1,1,1,1,1,1,1,1,1,1,1,1,1,1,1,1,1,1,1,1,1,1,1,1,1,1,1,1,1,1,1,1,1,1,1,1,1,1,1,1,1,1,1,1,1,1,1,1,1,1,1,1,1,1,1,1,1,1,1,1,1,1,1,1,1,1,1,1,1,1,1,1,1,1,1,1,1,1,1,1,1,1,1,1,1,1,1,1,1,1,1,1,1,1,1,1,1,1,1,1,1,1,1,1,1,1,1,1,1,1,1,1,1,1,1,1,1,1,1,1,1,1,1,1,1,1,1,1,1,1,1,1,1,1,1,1,1,1,1,1,1,1,1,1,1,1,1,1,1,1,1,1,1,1,1,1,1,1,1,1,1,1,1,1,1,1,1,1,1,1,1,1,1,1,1); } g() { }
--- written
/a.c line 2: too many names
1 files, 1 faults

=== most_arguments_of_another_object
# So has a call of another object, beside the object and the name. Here are 255.
--- /a.c
f() {
1->g(1,1,1,1,1,1,1,1,1,1,1,1,1,1,1,1,1,1,1,1,1,1,1,1,1,1,1,1,1,1,1,1,1,1,1,1,1,1,1,1,1,1,1,1,1,1,1,1,1,1,1,1,1,1,1,1,1,1,1,1,1,1,1,1,1,1,1,1,1,1,1,1,1,1,1,1,1,1,1,1,1,1,1,1,1,1,1,1,1,1,1,1,1,1,1,1,1,1,1,1,1,1,1,1,1,1,1,1,1,1,1,1,1,1,1,1,1,1,1,1,1,1,1,1,1,1,1,1,1,1,1,1,1,1,1,1,1,1,1,1,1,1,1,1,1,1,1,1,1,1,1,1,1,1,1,1,1,1,1,1,1,1,1,1,1,1,1,1,1,1,1,1,1,1,1,1,1,1,1,1,1,1,1,1,1,1,1,1,1,1,1,1,1,1,1,1,1,1,1,1,1,1,1,1,1,1,1,1,1,1,1,1,1,1,1,1,1,1,1,1,1,1,1,1,1,1,1,1,1,1,1,1,1,1,1,1,1,1,1,1,1,1,1,1,1,1,1,1,1,1,1,1,1,1,1); }
--- written
1 files, 0 faults

=== too_many_arguments_of_another_object
# So has a call of another object, beside the object and the name. Here are 256.
--- /a.c
f() {
1->g(1,1,1,1,1,1,1,1,1,1,1,1,1,1,1,1,1,1,1,1,1,1,1,1,1,1,1,1,1,1,1,1,1,1,1,1,1,1,1,1,1,1,1,1,1,1,1,1,1,1,1,1,1,1,1,1,1,1,1,1,1,1,1,1,1,1,1,1,1,1,1,1,1,1,1,1,1,1,1,1,1,1,1,1,1,1,1,1,1,1,1,1,1,1,1,1,1,1,1,1,1,1,1,1,1,1,1,1,1,1,1,1,1,1,1,1,1,1,1,1,1,1,1,1,1,1,1,1,1,1,1,1,1,1,1,1,1,1,1,1,1,1,1,1,1,1,1,1,1,1,1,1,1,1,1,1,1,1,1,1,1,1,1,1,1,1,1,1,1,1,1,1,1,1,1,1,1,1,1,1,1,1,1,1,1,1,1,1,1,1,1,1,1,1,1,1,1,1,1,1,1,1,1,1,1,1,1,1,1,1,1,1,1,1,1,1,1,1,1,1,1,1,1,1,1,1,1,1,1,1,1,1,1,1,1,1,1,1,1,1,1,1,1,1,1,1,1,1,1,1,1,1,1,1,1,1); }
--- written
/a.c line 2: too many names
1 files, 1 faults

=== most_arguments_by_super
# And a call of the function of a parent. Here are 255.
--- /p.c
g() { }
--- /a.c
inherit "/p"; f() {
::g(1,1,1,1,1,1,1,1,1,1,1,1,1,1,1,1,1,1,1,1,1,1,1,1,1,1,1,1,1,1,1,1,1,1,1,1,1,1,1,1,1,1,1,1,1,1,1,1,1,1,1,1,1,1,1,1,1,1,1,1,1,1,1,1,1,1,1,1,1,1,1,1,1,1,1,1,1,1,1,1,1,1,1,1,1,1,1,1,1,1,1,1,1,1,1,1,1,1,1,1,1,1,1,1,1,1,1,1,1,1,1,1,1,1,1,1,1,1,1,1,1,1,1,1,1,1,1,1,1,1,1,1,1,1,1,1,1,1,1,1,1,1,1,1,1,1,1,1,1,1,1,1,1,1,1,1,1,1,1,1,1,1,1,1,1,1,1,1,1,1,1,1,1,1,1,1,1,1,1,1,1,1,1,1,1,1,1,1,1,1,1,1,1,1,1,1,1,1,1,1,1,1,1,1,1,1,1,1,1,1,1,1,1,1,1,1,1,1,1,1,1,1,1,1,1,1,1,1,1,1,1,1,1,1,1,1,1,1,1,1,1,1,1,1,1,1,1,1,1,1,1,1,1,1,1); }
--- written
2 files, 0 faults

=== too_many_arguments_by_super
# And a call of the function of a parent. Here are 256.
--- /p.c
g() { }
--- /a.c
inherit "/p"; f() {
::g(1,1,1,1,1,1,1,1,1,1,1,1,1,1,1,1,1,1,1,1,1,1,1,1,1,1,1,1,1,1,1,1,1,1,1,1,1,1,1,1,1,1,1,1,1,1,1,1,1,1,1,1,1,1,1,1,1,1,1,1,1,1,1,1,1,1,1,1,1,1,1,1,1,1,1,1,1,1,1,1,1,1,1,1,1,1,1,1,1,1,1,1,1,1,1,1,1,1,1,1,1,1,1,1,1,1,1,1,1,1,1,1,1,1,1,1,1,1,1,1,1,1,1,1,1,1,1,1,1,1,1,1,1,1,1,1,1,1,1,1,1,1,1,1,1,1,1,1,1,1,1,1,1,1,1,1,1,1,1,1,1,1,1,1,1,1,1,1,1,1,1,1,1,1,1,1,1,1,1,1,1,1,1,1,1,1,1,1,1,1,1,1,1,1,1,1,1,1,1,1,1,1,1,1,1,1,1,1,1,1,1,1,1,1,1,1,1,1,1,1,1,1,1,1,1,1,1,1,1,1,1,1,1,1,1,1,1,1,1,1,1,1,1,1,1,1,1,1,1,1,1,1,1,1,1,1); }
--- written
/a.c line 2: too many names
2 files, 1 faults

=== most_locals
# A function has at most 255 locals, of all its blocks together, and none of its parameters is one; a name of a
# `foreach` is one where it has a type. Here are 255.
--- /a.c
int g;
f(a, b, c) { int d; { string a, b; }
 for (int e;;) foreach (int f, g : 1) { int h,a0,a1,a2,a3,a4,a5,a6,a7,a8,a9,a10,a11,a12,a13,a14,a15,a16,a17,a18,a19,a20,a21,a22,a23,a24,a25,a26,a27,a28,a29,a30,a31,a32,a33,a34,a35,a36,a37,a38,a39,a40,a41,a42,a43,a44,a45,a46,a47,a48,a49,a50,a51,a52,a53,a54,a55,a56,a57,a58,a59,a60,a61,a62,a63,a64,a65,a66,a67,a68,a69,a70,a71,a72,a73,a74,a75,a76,a77,a78,a79,a80,a81,a82,a83,a84,a85,a86,a87,a88,a89,a90,a91,a92,a93,a94,a95,a96,a97,a98,a99,a100,a101,a102,a103,a104,a105,a106,a107,a108,a109,a110,a111,a112,a113,a114,a115,a116,a117,a118,a119,a120,a121,a122,a123,a124,a125,a126,a127,a128,a129,a130,a131,a132,a133,a134,a135,a136,a137,a138,a139,a140,a141,a142,a143,a144,a145,a146,a147,a148,a149,a150,a151,a152,a153,a154,a155,a156,a157,a158,a159,a160,a161,a162,a163,a164,a165,a166,a167,a168,a169,a170,a171,a172,a173,a174,a175,a176,a177,a178,a179,a180,a181,a182,a183,a184,a185,a186,a187,a188,a189,a190,a191,a192,a193,a194,a195,a196,a197,a198,a199,a200,a201,a202,a203,a204,a205,a206,a207,a208,a209,a210,a211,a212,a213,a214,a215,a216,a217,a218,a219,a220,a221,a222,a223,a224,a225,a226,a227,a228,a229,a230,a231,a232,a233,a234,a235,a236,a237,a238,a239,a240,a241,a242,a243,a244,a245,a246,a247,a248; } }
--- written
1 files, 0 faults

=== too_many_locals
# Here are 256 locals.
--- /a.c
int g;
f(a, b, c) { int d; { string a, b; }
 for (int e;;) foreach (int f, g : 1) { int h,a0,a1,a2,a3,a4,a5,a6,a7,a8,a9,a10,a11,a12,a13,a14,a15,a16,a17,a18,a19,a20,a21,a22,a23,a24,a25,a26,a27,a28,a29,a30,a31,a32,a33,a34,a35,a36,a37,a38,a39,a40,a41,a42,a43,a44,a45,a46,a47,a48,a49,a50,a51,a52,a53,a54,a55,a56,a57,a58,a59,a60,a61,a62,a63,a64,a65,a66,a67,a68,a69,a70,a71,a72,a73,a74,a75,a76,a77,a78,a79,a80,a81,a82,a83,a84,a85,a86,a87,a88,a89,a90,a91,a92,a93,a94,a95,a96,a97,a98,a99,a100,a101,a102,a103,a104,a105,a106,a107,a108,a109,a110,a111,a112,a113,a114,a115,a116,a117,a118,a119,a120,a121,a122,a123,a124,a125,a126,a127,a128,a129,a130,a131,a132,a133,a134,a135,a136,a137,a138,a139,a140,a141,a142,a143,a144,a145,a146,a147,a148,a149,a150,a151,a152,a153,a154,a155,a156,a157,a158,a159,a160,a161,a162,a163,a164,a165,a166,a167,a168,a169,a170,a171,a172,a173,a174,a175,a176,a177,a178,a179,a180,a181,a182,a183,a184,a185,a186,a187,a188,a189,a190,a191,a192,a193,a194,a195,a196,a197,a198,a199,a200,a201,a202,a203,a204,a205,a206,a207,a208,a209,a210,a211,a212,a213,a214,a215,a216,a217,a218,a219,a220,a221,a222,a223,a224,a225,a226,a227,a228,a229,a230,a231,a232,a233,a234,a235,a236,a237,a238,a239,a240,a241,a242,a243,a244,a245,a246,a247,a248,a249; } }
--- written
/a.c line 2: too many names
1 files, 1 faults

=== ambiguous_before_too_many_arguments
# At one token an ambiguous parent is told before too many arguments.
--- /p.c
f() { }
--- /a.c
inherit "/p"; inherit "/p"; g() {
"p"::f(1,1,1,1,1,1,1,1,1,1,1,1,1,1,1,1,1,1,1,1,1,1,1,1,1,1,1,1,1,1,1,1,1,1,1,1,1,1,1,1,1,1,1,1,1,1,1,1,1,1,1,1,1,1,1,1,1,1,1,1,1,1,1,1,1,1,1,1,1,1,1,1,1,1,1,1,1,1,1,1,1,1,1,1,1,1,1,1,1,1,1,1,1,1,1,1,1,1,1,1,1,1,1,1,1,1,1,1,1,1,1,1,1,1,1,1,1,1,1,1,1,1,1,1,1,1,1,1,1,1,1,1,1,1,1,1,1,1,1,1,1,1,1,1,1,1,1,1,1,1,1,1,1,1,1,1,1,1,1,1,1,1,1,1,1,1,1,1,1,1,1,1,1,1,1,1,1,1,1,1,1,1,1,1,1,1,1,1,1,1,1,1,1,1,1,1,1,1,1,1,1,1,1,1,1,1,1,1,1,1,1,1,1,1,1,1,1,1,1,1,1,1,1,1,1,1,1,1,1,1,1,1,1,1,1,1,1,1,1,1,1,1,1,1,1,1,1,1,1,1,1,1,1,1,1,1); }
--- written
/a.c line 2: ambiguous parent
2 files, 1 faults

=== outer_call_before_inner_one
# Of two calls the outer one begins first.
--- /p.c
f() { }
--- /a.c
inherit "/p"; inherit "/p"; h() { } g() {
h("p"::f(),1,1,1,1,1,1,1,1,1,1,1,1,1,1,1,1,1,1,1,1,1,1,1,1,1,1,1,1,1,1,1,1,1,1,1,1,1,1,1,1,1,1,1,1,1,1,1,1,1,1,1,1,1,1,1,1,1,1,1,1,1,1,1,1,1,1,1,1,1,1,1,1,1,1,1,1,1,1,1,1,1,1,1,1,1,1,1,1,1,1,1,1,1,1,1,1,1,1,1,1,1,1,1,1,1,1,1,1,1,1,1,1,1,1,1,1,1,1,1,1,1,1,1,1,1,1,1,1,1,1,1,1,1,1,1,1,1,1,1,1,1,1,1,1,1,1,1,1,1,1,1,1,1,1,1,1,1,1,1,1,1,1,1,1,1,1,1,1,1,1,1,1,1,1,1,1,1,1,1,1,1,1,1,1,1,1,1,1,1,1,1,1,1,1,1,1,1,1,1,1,1,1,1,1,1,1,1,1,1,1,1,1,1,1,1,1,1,1,1,1,1,1,1,1,1,1,1,1,1,1,1,1,1,1,1,1,1,1,1,1,1,1,1,1,1,1,1,1,1,1,1,1,1,1,1); }
--- written
/a.c line 2: too many names
2 files, 1 faults

=== most_parts
# Each file but the first inherits the one before it twice, so that its parts are one more than twice as many: the last
# has 65535, which is the most.
--- /1.c
--- /2.c
inherit "/1"; inherit "/1";
--- /3.c
inherit "/2"; inherit "/2";
--- /4.c
inherit "/3"; inherit "/3";
--- /5.c
inherit "/4"; inherit "/4";
--- /6.c
inherit "/5"; inherit "/5";
--- /7.c
inherit "/6"; inherit "/6";
--- /8.c
inherit "/7"; inherit "/7";
--- /9.c
inherit "/8"; inherit "/8";
--- /10.c
inherit "/9"; inherit "/9";
--- /11.c
inherit "/10"; inherit "/10";
--- /12.c
inherit "/11"; inherit "/11";
--- /13.c
inherit "/12"; inherit "/12";
--- /14.c
inherit "/13"; inherit "/13";
--- /15.c
inherit "/14"; inherit "/14";
--- /16.c
inherit "/15"; inherit "/15";
--- written
16 files, 0 faults

=== too_many_parts
# One part more: the fault stands at the first token of the file.
--- /1.c
--- /2.c
inherit "/1"; inherit "/1";
--- /3.c
inherit "/2"; inherit "/2";
--- /4.c
inherit "/3"; inherit "/3";
--- /5.c
inherit "/4"; inherit "/4";
--- /6.c
inherit "/5"; inherit "/5";
--- /7.c
inherit "/6"; inherit "/6";
--- /8.c
inherit "/7"; inherit "/7";
--- /9.c
inherit "/8"; inherit "/8";
--- /10.c
inherit "/9"; inherit "/9";
--- /11.c
inherit "/10"; inherit "/10";
--- /12.c
inherit "/11"; inherit "/11";
--- /13.c
inherit "/12"; inherit "/12";
--- /14.c
inherit "/13"; inherit "/13";
--- /15.c
inherit "/14"; inherit "/14";
--- /16.c
inherit "/15"; inherit "/15";
--- /t.c

int f();
inherit "/16";
--- written
/t.c line 2: too many names
17 files, 1 faults

=== no_inherit_before_too_many_parts
# Too many parts are told behind the other faults of that token.
--- /1.c
--- /2.c
inherit "/1"; inherit "/1";
--- /3.c
inherit "/2"; inherit "/2";
--- /4.c
inherit "/3"; inherit "/3";
--- /5.c
inherit "/4"; inherit "/4";
--- /6.c
inherit "/5"; inherit "/5";
--- /7.c
inherit "/6"; inherit "/6";
--- /8.c
inherit "/7"; inherit "/7";
--- /9.c
inherit "/8"; inherit "/8";
--- /10.c
inherit "/9"; inherit "/9";
--- /11.c
inherit "/10"; inherit "/10";
--- /12.c
inherit "/11"; inherit "/11";
--- /13.c
inherit "/12"; inherit "/12";
--- /14.c
inherit "/13"; inherit "/13";
--- /15.c
inherit "/14"; inherit "/14";
--- /16.c
inherit "/15"; inherit "/15";
#pragma no_inherit
--- /t.c

inherit "/16";
--- written
/t.c line 2: not inheritable
17 files, 1 faults

=== too_many_parts_before_no_inherit
# And before those of a later token.
--- /1.c
--- /2.c
inherit "/1"; inherit "/1";
--- /3.c
inherit "/2"; inherit "/2";
--- /4.c
inherit "/3"; inherit "/3";
--- /5.c
inherit "/4"; inherit "/4";
--- /6.c
inherit "/5"; inherit "/5";
--- /7.c
inherit "/6"; inherit "/6";
--- /8.c
inherit "/7"; inherit "/7";
--- /9.c
inherit "/8"; inherit "/8";
--- /10.c
inherit "/9"; inherit "/9";
--- /11.c
inherit "/10"; inherit "/10";
--- /12.c
inherit "/11"; inherit "/11";
--- /13.c
inherit "/12"; inherit "/12";
--- /14.c
inherit "/13"; inherit "/13";
--- /15.c
inherit "/14"; inherit "/14";
--- /16.c
inherit "/15"; inherit "/15";
#pragma no_inherit
--- /t.c

int f();
inherit "/16";
--- written
/t.c line 2: too many names
17 files, 1 faults
