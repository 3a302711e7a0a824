# Sources that are cut behind each of their tokens, which stand on a line each. Each front that is no whole unit has its
# fault in the line of its last token: more is wanted there. And each front goes on to a unit: with a token behind it
# that nothing has, the fault is that of this token, in its own line.
# These are declarations.
words: check

=== inherit
# inherit "a" ;
--- /01.c
inherit
--- /01_.c
inherit
.
--- /02.c
inherit
"a"
--- /02_.c
inherit
"a"
.
--- /03_.c
inherit
"a"
;
.
--- written
/01.c line 1: unexpected token
/01_.c line 2: unexpected token
/02.c line 2: unexpected token
/02_.c line 3: unexpected token
/03_.c line 4: unexpected token
5 files, 5 faults

=== inherits
# inherit "a" ; inherit "b" ;
--- /01.c
inherit
--- /01_.c
inherit
.
--- /02.c
inherit
"a"
--- /02_.c
inherit
"a"
.
--- /03_.c
inherit
"a"
;
.
--- /04.c
inherit
"a"
;
inherit
--- /04_.c
inherit
"a"
;
inherit
.
--- /05.c
inherit
"a"
;
inherit
"b"
--- /05_.c
inherit
"a"
;
inherit
"b"
.
--- /06_.c
inherit
"a"
;
inherit
"b"
;
.
--- written
/01.c line 1: unexpected token
/01_.c line 2: unexpected token
/02.c line 2: unexpected token
/02_.c line 3: unexpected token
/03_.c line 4: unexpected token
/04.c line 4: unexpected token
/04_.c line 5: unexpected token
/05.c line 5: unexpected token
/05_.c line 6: unexpected token
/06_.c line 7: unexpected token
10 files, 10 faults

=== inherits_between_prototypes
# f ( ) ; inherit "a" ; int g ( ) ; inherit "b" ; int c ;
--- /01.c
f
--- /01_.c
f
.
--- /02.c
f
(
--- /02_.c
f
(
.
--- /03.c
f
(
)
--- /03_.c
f
(
)
.
--- /04_.c
f
(
)
;
.
--- /05.c
f
(
)
;
inherit
--- /05_.c
f
(
)
;
inherit
.
--- /06.c
f
(
)
;
inherit
"a"
--- /06_.c
f
(
)
;
inherit
"a"
.
--- /07_.c
f
(
)
;
inherit
"a"
;
.
--- /08.c
f
(
)
;
inherit
"a"
;
int
--- /08_.c
f
(
)
;
inherit
"a"
;
int
.
--- /09.c
f
(
)
;
inherit
"a"
;
int
g
--- /09_.c
f
(
)
;
inherit
"a"
;
int
g
.
--- /10.c
f
(
)
;
inherit
"a"
;
int
g
(
--- /10_.c
f
(
)
;
inherit
"a"
;
int
g
(
.
--- /11.c
f
(
)
;
inherit
"a"
;
int
g
(
)
--- /11_.c
f
(
)
;
inherit
"a"
;
int
g
(
)
.
--- /12_.c
f
(
)
;
inherit
"a"
;
int
g
(
)
;
.
--- /13.c
f
(
)
;
inherit
"a"
;
int
g
(
)
;
inherit
--- /13_.c
f
(
)
;
inherit
"a"
;
int
g
(
)
;
inherit
.
--- /14.c
f
(
)
;
inherit
"a"
;
int
g
(
)
;
inherit
"b"
--- /14_.c
f
(
)
;
inherit
"a"
;
int
g
(
)
;
inherit
"b"
.
--- /15_.c
f
(
)
;
inherit
"a"
;
int
g
(
)
;
inherit
"b"
;
.
--- /16.c
f
(
)
;
inherit
"a"
;
int
g
(
)
;
inherit
"b"
;
int
--- /16_.c
f
(
)
;
inherit
"a"
;
int
g
(
)
;
inherit
"b"
;
int
.
--- /17.c
f
(
)
;
inherit
"a"
;
int
g
(
)
;
inherit
"b"
;
int
c
--- /17_.c
f
(
)
;
inherit
"a"
;
int
g
(
)
;
inherit
"b"
;
int
c
.
--- /18_.c
f
(
)
;
inherit
"a"
;
int
g
(
)
;
inherit
"b"
;
int
c
;
.
--- written
/01.c line 1: unexpected token
/01_.c line 2: unexpected token
/02.c line 2: unexpected token
/02_.c line 3: unexpected token
/03.c line 3: unexpected token
/03_.c line 4: unexpected token
/04_.c line 5: unexpected token
/05.c line 5: unexpected token
/05_.c line 6: unexpected token
/06.c line 6: unexpected token
/06_.c line 7: unexpected token
/07_.c line 8: unexpected token
/08.c line 8: unexpected token
/08_.c line 9: unexpected token
/09.c line 9: unexpected token
/09_.c line 10: unexpected token
/10.c line 10: unexpected token
/10_.c line 11: unexpected token
/11.c line 11: unexpected token
/11_.c line 12: unexpected token
/12_.c line 13: unexpected token
/13.c line 13: unexpected token
/13_.c line 14: unexpected token
/14.c line 14: unexpected token
/14_.c line 15: unexpected token
/15_.c line 16: unexpected token
/16.c line 16: unexpected token
/16_.c line 17: unexpected token
/17.c line 17: unexpected token
/17_.c line 18: unexpected token
/18_.c line 19: unexpected token
31 files, 31 faults

=== prototype
# f ( ) ;
--- /01.c
f
--- /01_.c
f
.
--- /02.c
f
(
--- /02_.c
f
(
.
--- /03.c
f
(
)
--- /03_.c
f
(
)
.
--- /04_.c
f
(
)
;
.
--- written
/01.c line 1: unexpected token
/01_.c line 2: unexpected token
/02.c line 2: unexpected token
/02_.c line 3: unexpected token
/03.c line 3: unexpected token
/03_.c line 4: unexpected token
/04_.c line 5: unexpected token
7 files, 7 faults

=== prototype_with_everything
# private varargs int * * f ( a , int b , string * c ) ;
--- /01.c
private
--- /01_.c
private
.
--- /02.c
private
varargs
--- /02_.c
private
varargs
.
--- /03.c
private
varargs
int
--- /03_.c
private
varargs
int
.
--- /04.c
private
varargs
int
*
--- /04_.c
private
varargs
int
*
.
--- /05.c
private
varargs
int
*
*
--- /05_.c
private
varargs
int
*
*
.
--- /06.c
private
varargs
int
*
*
f
--- /06_.c
private
varargs
int
*
*
f
.
--- /07.c
private
varargs
int
*
*
f
(
--- /07_.c
private
varargs
int
*
*
f
(
.
--- /08.c
private
varargs
int
*
*
f
(
a
--- /08_.c
private
varargs
int
*
*
f
(
a
.
--- /09.c
private
varargs
int
*
*
f
(
a
,
--- /09_.c
private
varargs
int
*
*
f
(
a
,
.
--- /10.c
private
varargs
int
*
*
f
(
a
,
int
--- /10_.c
private
varargs
int
*
*
f
(
a
,
int
.
--- /11.c
private
varargs
int
*
*
f
(
a
,
int
b
--- /11_.c
private
varargs
int
*
*
f
(
a
,
int
b
.
--- /12.c
private
varargs
int
*
*
f
(
a
,
int
b
,
--- /12_.c
private
varargs
int
*
*
f
(
a
,
int
b
,
.
--- /13.c
private
varargs
int
*
*
f
(
a
,
int
b
,
string
--- /13_.c
private
varargs
int
*
*
f
(
a
,
int
b
,
string
.
--- /14.c
private
varargs
int
*
*
f
(
a
,
int
b
,
string
*
--- /14_.c
private
varargs
int
*
*
f
(
a
,
int
b
,
string
*
.
--- /15.c
private
varargs
int
*
*
f
(
a
,
int
b
,
string
*
c
--- /15_.c
private
varargs
int
*
*
f
(
a
,
int
b
,
string
*
c
.
--- /16.c
private
varargs
int
*
*
f
(
a
,
int
b
,
string
*
c
)
--- /16_.c
private
varargs
int
*
*
f
(
a
,
int
b
,
string
*
c
)
.
--- /17_.c
private
varargs
int
*
*
f
(
a
,
int
b
,
string
*
c
)
;
.
--- written
/01.c line 1: unexpected token
/01_.c line 2: unexpected token
/02.c line 2: unexpected token
/02_.c line 3: unexpected token
/03.c line 3: unexpected token
/03_.c line 4: unexpected token
/04.c line 4: unexpected token
/04_.c line 5: unexpected token
/05.c line 5: unexpected token
/05_.c line 6: unexpected token
/06.c line 6: unexpected token
/06_.c line 7: unexpected token
/07.c line 7: unexpected token
/07_.c line 8: unexpected token
/08.c line 8: unexpected token
/08_.c line 9: unexpected token
/09.c line 9: unexpected token
/09_.c line 10: unexpected token
/10.c line 10: unexpected token
/10_.c line 11: unexpected token
/11.c line 11: unexpected token
/11_.c line 12: unexpected token
/12.c line 12: unexpected token
/12_.c line 13: unexpected token
/13.c line 13: unexpected token
/13_.c line 14: unexpected token
/14.c line 14: unexpected token
/14_.c line 15: unexpected token
/15.c line 15: unexpected token
/15_.c line 16: unexpected token
/16.c line 16: unexpected token
/16_.c line 17: unexpected token
/17_.c line 18: unexpected token
33 files, 33 faults

=== function_that_may_not_be_masked
# nomask f ( int a ) { }
--- /01.c
nomask
--- /01_.c
nomask
.
--- /02.c
nomask
f
--- /02_.c
nomask
f
.
--- /03.c
nomask
f
(
--- /03_.c
nomask
f
(
.
--- /04.c
nomask
f
(
int
--- /04_.c
nomask
f
(
int
.
--- /05.c
nomask
f
(
int
a
--- /05_.c
nomask
f
(
int
a
.
--- /06.c
nomask
f
(
int
a
)
--- /06_.c
nomask
f
(
int
a
)
.
--- /07.c
nomask
f
(
int
a
)
{
--- /07_.c
nomask
f
(
int
a
)
{
.
--- /08_.c
nomask
f
(
int
a
)
{
}
.
--- written
/01.c line 1: unexpected token
/01_.c line 2: unexpected token
/02.c line 2: unexpected token
/02_.c line 3: unexpected token
/03.c line 3: unexpected token
/03_.c line 4: unexpected token
/04.c line 4: unexpected token
/04_.c line 5: unexpected token
/05.c line 5: unexpected token
/05_.c line 6: unexpected token
/06.c line 6: unexpected token
/06_.c line 7: unexpected token
/07.c line 7: unexpected token
/07_.c line 8: unexpected token
/08_.c line 9: unexpected token
15 files, 15 faults

=== variable_with_modifiers
# protected public static nosave int a ;
--- /01.c
protected
--- /01_.c
protected
.
--- /02.c
protected
public
--- /02_.c
protected
public
.
--- /03.c
protected
public
static
--- /03_.c
protected
public
static
.
--- /04.c
protected
public
static
nosave
--- /04_.c
protected
public
static
nosave
.
--- /05.c
protected
public
static
nosave
int
--- /05_.c
protected
public
static
nosave
int
.
--- /06.c
protected
public
static
nosave
int
a
--- /06_.c
protected
public
static
nosave
int
a
.
--- /07_.c
protected
public
static
nosave
int
a
;
.
--- written
/01.c line 1: unexpected token
/01_.c line 2: unexpected token
/02.c line 2: unexpected token
/02_.c line 3: unexpected token
/03.c line 3: unexpected token
/03_.c line 4: unexpected token
/04.c line 4: unexpected token
/04_.c line 5: unexpected token
/05.c line 5: unexpected token
/05_.c line 6: unexpected token
/06.c line 6: unexpected token
/06_.c line 7: unexpected token
/07_.c line 8: unexpected token
13 files, 13 faults

=== variables
# int a , * b , * * c = 1 + 2 , d = f ( 3 , 4 ) ;
--- /01.c
int
--- /01_.c
int
.
--- /02.c
int
a
--- /02_.c
int
a
.
--- /03.c
int
a
,
--- /03_.c
int
a
,
.
--- /04.c
int
a
,
*
--- /04_.c
int
a
,
*
.
--- /05.c
int
a
,
*
b
--- /05_.c
int
a
,
*
b
.
--- /06.c
int
a
,
*
b
,
--- /06_.c
int
a
,
*
b
,
.
--- /07.c
int
a
,
*
b
,
*
--- /07_.c
int
a
,
*
b
,
*
.
--- /08.c
int
a
,
*
b
,
*
*
--- /08_.c
int
a
,
*
b
,
*
*
.
--- /09.c
int
a
,
*
b
,
*
*
c
--- /09_.c
int
a
,
*
b
,
*
*
c
.
--- /10.c
int
a
,
*
b
,
*
*
c
=
--- /10_.c
int
a
,
*
b
,
*
*
c
=
.
--- /11.c
int
a
,
*
b
,
*
*
c
=
1
--- /11_.c
int
a
,
*
b
,
*
*
c
=
1
.
--- /12.c
int
a
,
*
b
,
*
*
c
=
1
+
--- /12_.c
int
a
,
*
b
,
*
*
c
=
1
+
.
--- /13.c
int
a
,
*
b
,
*
*
c
=
1
+
2
--- /13_.c
int
a
,
*
b
,
*
*
c
=
1
+
2
.
--- /14.c
int
a
,
*
b
,
*
*
c
=
1
+
2
,
--- /14_.c
int
a
,
*
b
,
*
*
c
=
1
+
2
,
.
--- /15.c
int
a
,
*
b
,
*
*
c
=
1
+
2
,
d
--- /15_.c
int
a
,
*
b
,
*
*
c
=
1
+
2
,
d
.
--- /16.c
int
a
,
*
b
,
*
*
c
=
1
+
2
,
d
=
--- /16_.c
int
a
,
*
b
,
*
*
c
=
1
+
2
,
d
=
.
--- /17.c
int
a
,
*
b
,
*
*
c
=
1
+
2
,
d
=
f
--- /17_.c
int
a
,
*
b
,
*
*
c
=
1
+
2
,
d
=
f
.
--- /18.c
int
a
,
*
b
,
*
*
c
=
1
+
2
,
d
=
f
(
--- /18_.c
int
a
,
*
b
,
*
*
c
=
1
+
2
,
d
=
f
(
.
--- /19.c
int
a
,
*
b
,
*
*
c
=
1
+
2
,
d
=
f
(
3
--- /19_.c
int
a
,
*
b
,
*
*
c
=
1
+
2
,
d
=
f
(
3
.
--- /20.c
int
a
,
*
b
,
*
*
c
=
1
+
2
,
d
=
f
(
3
,
--- /20_.c
int
a
,
*
b
,
*
*
c
=
1
+
2
,
d
=
f
(
3
,
.
--- /21.c
int
a
,
*
b
,
*
*
c
=
1
+
2
,
d
=
f
(
3
,
4
--- /21_.c
int
a
,
*
b
,
*
*
c
=
1
+
2
,
d
=
f
(
3
,
4
.
--- /22.c
int
a
,
*
b
,
*
*
c
=
1
+
2
,
d
=
f
(
3
,
4
)
--- /22_.c
int
a
,
*
b
,
*
*
c
=
1
+
2
,
d
=
f
(
3
,
4
)
.
--- /23_.c
int
a
,
*
b
,
*
*
c
=
1
+
2
,
d
=
f
(
3
,
4
)
;
.
--- written
/01.c line 1: unexpected token
/01_.c line 2: unexpected token
/02.c line 2: unexpected token
/02_.c line 3: unexpected token
/03.c line 3: unexpected token
/03_.c line 4: unexpected token
/04.c line 4: unexpected token
/04_.c line 5: unexpected token
/05.c line 5: unexpected token
/05_.c line 6: unexpected token
/06.c line 6: unexpected token
/06_.c line 7: unexpected token
/07.c line 7: unexpected token
/07_.c line 8: unexpected token
/08.c line 8: unexpected token
/08_.c line 9: unexpected token
/09.c line 9: unexpected token
/09_.c line 10: unexpected token
/10.c line 10: unexpected token
/10_.c line 11: unexpected token
/11.c line 11: unexpected token
/11_.c line 12: unexpected token
/12.c line 12: unexpected token
/12_.c line 13: unexpected token
/13.c line 13: unexpected token
/13_.c line 14: unexpected token
/14.c line 14: unexpected token
/14_.c line 15: unexpected token
/15.c line 15: unexpected token
/15_.c line 16: unexpected token
/16.c line 16: unexpected token
/16_.c line 17: unexpected token
/17.c line 17: unexpected token
/17_.c line 18: unexpected token
/18.c line 18: unexpected token
/18_.c line 19: unexpected token
/19.c line 19: unexpected token
/19_.c line 20: unexpected token
/20.c line 20: unexpected token
/20_.c line 21: unexpected token
/21.c line 21: unexpected token
/21_.c line 22: unexpected token
/22.c line 22: unexpected token
/22_.c line 23: unexpected token
/23_.c line 24: unexpected token
45 files, 45 faults

=== function
# void f ( ) { }
--- /01.c
void
--- /01_.c
void
.
--- /02.c
void
f
--- /02_.c
void
f
.
--- /03.c
void
f
(
--- /03_.c
void
f
(
.
--- /04.c
void
f
(
)
--- /04_.c
void
f
(
)
.
--- /05.c
void
f
(
)
{
--- /05_.c
void
f
(
)
{
.
--- /06_.c
void
f
(
)
{
}
.
--- written
/01.c line 1: unexpected token
/01_.c line 2: unexpected token
/02.c line 2: unexpected token
/02_.c line 3: unexpected token
/03.c line 3: unexpected token
/03_.c line 4: unexpected token
/04.c line 4: unexpected token
/04_.c line 5: unexpected token
/05.c line 5: unexpected token
/05_.c line 6: unexpected token
/06_.c line 7: unexpected token
11 files, 11 faults

=== functions_and_a_variable
# f ( a , b ) { ; } g ( ) { } int c ;
--- /01.c
f
--- /01_.c
f
.
--- /02.c
f
(
--- /02_.c
f
(
.
--- /03.c
f
(
a
--- /03_.c
f
(
a
.
--- /04.c
f
(
a
,
--- /04_.c
f
(
a
,
.
--- /05.c
f
(
a
,
b
--- /05_.c
f
(
a
,
b
.
--- /06.c
f
(
a
,
b
)
--- /06_.c
f
(
a
,
b
)
.
--- /07.c
f
(
a
,
b
)
{
--- /07_.c
f
(
a
,
b
)
{
.
--- /08.c
f
(
a
,
b
)
{
;
--- /08_.c
f
(
a
,
b
)
{
;
.
--- /09_.c
f
(
a
,
b
)
{
;
}
.
--- /10.c
f
(
a
,
b
)
{
;
}
g
--- /10_.c
f
(
a
,
b
)
{
;
}
g
.
--- /11.c
f
(
a
,
b
)
{
;
}
g
(
--- /11_.c
f
(
a
,
b
)
{
;
}
g
(
.
--- /12.c
f
(
a
,
b
)
{
;
}
g
(
)
--- /12_.c
f
(
a
,
b
)
{
;
}
g
(
)
.
--- /13.c
f
(
a
,
b
)
{
;
}
g
(
)
{
--- /13_.c
f
(
a
,
b
)
{
;
}
g
(
)
{
.
--- /14_.c
f
(
a
,
b
)
{
;
}
g
(
)
{
}
.
--- /15.c
f
(
a
,
b
)
{
;
}
g
(
)
{
}
int
--- /15_.c
f
(
a
,
b
)
{
;
}
g
(
)
{
}
int
.
--- /16.c
f
(
a
,
b
)
{
;
}
g
(
)
{
}
int
c
--- /16_.c
f
(
a
,
b
)
{
;
}
g
(
)
{
}
int
c
.
--- /17_.c
f
(
a
,
b
)
{
;
}
g
(
)
{
}
int
c
;
.
--- written
/01.c line 1: unexpected token
/01_.c line 2: unexpected token
/02.c line 2: unexpected token
/02_.c line 3: unexpected token
/03.c line 3: unexpected token
/03_.c line 4: unexpected token
/04.c line 4: unexpected token
/04_.c line 5: unexpected token
/05.c line 5: unexpected token
/05_.c line 6: unexpected token
/06.c line 6: unexpected token
/06_.c line 7: unexpected token
/07.c line 7: unexpected token
/07_.c line 8: unexpected token
/08.c line 8: unexpected token
/08_.c line 9: unexpected token
/09_.c line 10: unexpected token
/10.c line 10: unexpected token
/10_.c line 11: unexpected token
/11.c line 11: unexpected token
/11_.c line 12: unexpected token
/12.c line 12: unexpected token
/12_.c line 13: unexpected token
/13.c line 13: unexpected token
/13_.c line 14: unexpected token
/14_.c line 15: unexpected token
/15.c line 15: unexpected token
/15_.c line 16: unexpected token
/16.c line 16: unexpected token
/16_.c line 17: unexpected token
/17_.c line 18: unexpected token
31 files, 31 faults
