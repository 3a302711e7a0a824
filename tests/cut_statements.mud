# Sources that are cut behind each of their tokens, which stand on a line each. Each front that is no whole unit has its
# fault in the line of its last token: more is wanted there. And each front goes on to a unit: with a token behind it
# that nothing has, the fault is that of this token, in its own line.
# These are the statements of a function.
words: check

=== statement
# f ( ) { a ; }
--- /01.c
f
--- /01_.c
f
.
--- /02.c
f
(
--- /02_.c
f
(
.
--- /03.c
f
(
)
--- /03_.c
f
(
)
.
--- /04.c
f
(
)
{
--- /04_.c
f
(
)
{
.
--- /05.c
f
(
)
{
a
--- /05_.c
f
(
)
{
a
.
--- /06.c
f
(
)
{
a
;
--- /06_.c
f
(
)
{
a
;
.
--- /07_.c
f
(
)
{
a
;
}
.
--- written
/01.c line 1: unexpected token
/01_.c line 2: unexpected token
/02.c line 2: unexpected token
/02_.c line 3: unexpected token
/03.c line 3: unexpected token
/03_.c line 4: unexpected token
/04.c line 4: unexpected token
/04_.c line 5: unexpected token
/05.c line 5: unexpected token
/05_.c line 6: unexpected token
/06.c line 6: unexpected token
/06_.c line 7: unexpected token
/07_.c line 8: unexpected token
13 files, 13 faults

=== statements
# f ( ) { a = 1 , b ( 2 ) ; { } }
--- /01.c
f
--- /01_.c
f
.
--- /02.c
f
(
--- /02_.c
f
(
.
--- /03.c
f
(
)
--- /03_.c
f
(
)
.
--- /04.c
f
(
)
{
--- /04_.c
f
(
)
{
.
--- /05.c
f
(
)
{
a
--- /05_.c
f
(
)
{
a
.
--- /06.c
f
(
)
{
a
=
--- /06_.c
f
(
)
{
a
=
.
--- /07.c
f
(
)
{
a
=
1
--- /07_.c
f
(
)
{
a
=
1
.
--- /08.c
f
(
)
{
a
=
1
,
--- /08_.c
f
(
)
{
a
=
1
,
.
--- /09.c
f
(
)
{
a
=
1
,
b
--- /09_.c
f
(
)
{
a
=
1
,
b
.
--- /10.c
f
(
)
{
a
=
1
,
b
(
--- /10_.c
f
(
)
{
a
=
1
,
b
(
.
--- /11.c
f
(
)
{
a
=
1
,
b
(
2
--- /11_.c
f
(
)
{
a
=
1
,
b
(
2
.
--- /12.c
f
(
)
{
a
=
1
,
b
(
2
)
--- /12_.c
f
(
)
{
a
=
1
,
b
(
2
)
.
--- /13.c
f
(
)
{
a
=
1
,
b
(
2
)
;
--- /13_.c
f
(
)
{
a
=
1
,
b
(
2
)
;
.
--- /14.c
f
(
)
{
a
=
1
,
b
(
2
)
;
{
--- /14_.c
f
(
)
{
a
=
1
,
b
(
2
)
;
{
.
--- /15.c
f
(
)
{
a
=
1
,
b
(
2
)
;
{
}
--- /15_.c
f
(
)
{
a
=
1
,
b
(
2
)
;
{
}
.
--- /16_.c
f
(
)
{
a
=
1
,
b
(
2
)
;
{
}
}
.
--- written
/01.c line 1: unexpected token
/01_.c line 2: unexpected token
/02.c line 2: unexpected token
/02_.c line 3: unexpected token
/03.c line 3: unexpected token
/03_.c line 4: unexpected token
/04.c line 4: unexpected token
/04_.c line 5: unexpected token
/05.c line 5: unexpected token
/05_.c line 6: unexpected token
/06.c line 6: unexpected token
/06_.c line 7: unexpected token
/07.c line 7: unexpected token
/07_.c line 8: unexpected token
/08.c line 8: unexpected token
/08_.c line 9: unexpected token
/09.c line 9: unexpected token
/09_.c line 10: unexpected token
/10.c line 10: unexpected token
/10_.c line 11: unexpected token
/11.c line 11: unexpected token
/11_.c line 12: unexpected token
/12.c line 12: unexpected token
/12_.c line 13: unexpected token
/13.c line 13: unexpected token
/13_.c line 14: unexpected token
/14.c line 14: unexpected token
/14_.c line 15: unexpected token
/15.c line 15: unexpected token
/15_.c line 16: unexpected token
/16_.c line 17: unexpected token
31 files, 31 faults

=== locals
# f ( ) { int a , * b = 1 , c ; }
--- /01.c
f
--- /01_.c
f
.
--- /02.c
f
(
--- /02_.c
f
(
.
--- /03.c
f
(
)
--- /03_.c
f
(
)
.
--- /04.c
f
(
)
{
--- /04_.c
f
(
)
{
.
--- /05.c
f
(
)
{
int
--- /05_.c
f
(
)
{
int
.
--- /06.c
f
(
)
{
int
a
--- /06_.c
f
(
)
{
int
a
.
--- /07.c
f
(
)
{
int
a
,
--- /07_.c
f
(
)
{
int
a
,
.
--- /08.c
f
(
)
{
int
a
,
*
--- /08_.c
f
(
)
{
int
a
,
*
.
--- /09.c
f
(
)
{
int
a
,
*
b
--- /09_.c
f
(
)
{
int
a
,
*
b
.
--- /10.c
f
(
)
{
int
a
,
*
b
=
--- /10_.c
f
(
)
{
int
a
,
*
b
=
.
--- /11.c
f
(
)
{
int
a
,
*
b
=
1
--- /11_.c
f
(
)
{
int
a
,
*
b
=
1
.
--- /12.c
f
(
)
{
int
a
,
*
b
=
1
,
--- /12_.c
f
(
)
{
int
a
,
*
b
=
1
,
.
--- /13.c
f
(
)
{
int
a
,
*
b
=
1
,
c
--- /13_.c
f
(
)
{
int
a
,
*
b
=
1
,
c
.
--- /14.c
f
(
)
{
int
a
,
*
b
=
1
,
c
;
--- /14_.c
f
(
)
{
int
a
,
*
b
=
1
,
c
;
.
--- /15_.c
f
(
)
{
int
a
,
*
b
=
1
,
c
;
}
.
--- written
/01.c line 1: unexpected token
/01_.c line 2: unexpected token
/02.c line 2: unexpected token
/02_.c line 3: unexpected token
/03.c line 3: unexpected token
/03_.c line 4: unexpected token
/04.c line 4: unexpected token
/04_.c line 5: unexpected token
/05.c line 5: unexpected token
/05_.c line 6: unexpected token
/06.c line 6: unexpected token
/06_.c line 7: unexpected token
/07.c line 7: unexpected token
/07_.c line 8: unexpected token
/08.c line 8: unexpected token
/08_.c line 9: unexpected token
/09.c line 9: unexpected token
/09_.c line 10: unexpected token
/10.c line 10: unexpected token
/10_.c line 11: unexpected token
/11.c line 11: unexpected token
/11_.c line 12: unexpected token
/12.c line 12: unexpected token
/12_.c line 13: unexpected token
/13.c line 13: unexpected token
/13_.c line 14: unexpected token
/14.c line 14: unexpected token
/14_.c line 15: unexpected token
/15_.c line 16: unexpected token
29 files, 29 faults

=== blocks
# f ( ) { { ; { } } }
--- /01.c
f
--- /01_.c
f
.
--- /02.c
f
(
--- /02_.c
f
(
.
--- /03.c
f
(
)
--- /03_.c
f
(
)
.
--- /04.c
f
(
)
{
--- /04_.c
f
(
)
{
.
--- /05.c
f
(
)
{
{
--- /05_.c
f
(
)
{
{
.
--- /06.c
f
(
)
{
{
;
--- /06_.c
f
(
)
{
{
;
.
--- /07.c
f
(
)
{
{
;
{
--- /07_.c
f
(
)
{
{
;
{
.
--- /08.c
f
(
)
{
{
;
{
}
--- /08_.c
f
(
)
{
{
;
{
}
.
--- /09.c
f
(
)
{
{
;
{
}
}
--- /09_.c
f
(
)
{
{
;
{
}
}
.
--- /10_.c
f
(
)
{
{
;
{
}
}
}
.
--- written
/01.c line 1: unexpected token
/01_.c line 2: unexpected token
/02.c line 2: unexpected token
/02_.c line 3: unexpected token
/03.c line 3: unexpected token
/03_.c line 4: unexpected token
/04.c line 4: unexpected token
/04_.c line 5: unexpected token
/05.c line 5: unexpected token
/05_.c line 6: unexpected token
/06.c line 6: unexpected token
/06_.c line 7: unexpected token
/07.c line 7: unexpected token
/07_.c line 8: unexpected token
/08.c line 8: unexpected token
/08_.c line 9: unexpected token
/09.c line 9: unexpected token
/09_.c line 10: unexpected token
/10_.c line 11: unexpected token
19 files, 19 faults

=== if
# f ( ) { if ( a ) ; }
--- /01.c
f
--- /01_.c
f
.
--- /02.c
f
(
--- /02_.c
f
(
.
--- /03.c
f
(
)
--- /03_.c
f
(
)
.
--- /04.c
f
(
)
{
--- /04_.c
f
(
)
{
.
--- /05.c
f
(
)
{
if
--- /05_.c
f
(
)
{
if
.
--- /06.c
f
(
)
{
if
(
--- /06_.c
f
(
)
{
if
(
.
--- /07.c
f
(
)
{
if
(
a
--- /07_.c
f
(
)
{
if
(
a
.
--- /08.c
f
(
)
{
if
(
a
)
--- /08_.c
f
(
)
{
if
(
a
)
.
--- /09.c
f
(
)
{
if
(
a
)
;
--- /09_.c
f
(
)
{
if
(
a
)
;
.
--- /10_.c
f
(
)
{
if
(
a
)
;
}
.
--- written
/01.c line 1: unexpected token
/01_.c line 2: unexpected token
/02.c line 2: unexpected token
/02_.c line 3: unexpected token
/03.c line 3: unexpected token
/03_.c line 4: unexpected token
/04.c line 4: unexpected token
/04_.c line 5: unexpected token
/05.c line 5: unexpected token
/05_.c line 6: unexpected token
/06.c line 6: unexpected token
/06_.c line 7: unexpected token
/07.c line 7: unexpected token
/07_.c line 8: unexpected token
/08.c line 8: unexpected token
/08_.c line 9: unexpected token
/09.c line 9: unexpected token
/09_.c line 10: unexpected token
/10_.c line 11: unexpected token
19 files, 19 faults

=== if_and_else
# f ( ) { if ( a ) ; else ; }
--- /01.c
f
--- /01_.c
f
.
--- /02.c
f
(
--- /02_.c
f
(
.
--- /03.c
f
(
)
--- /03_.c
f
(
)
.
--- /04.c
f
(
)
{
--- /04_.c
f
(
)
{
.
--- /05.c
f
(
)
{
if
--- /05_.c
f
(
)
{
if
.
--- /06.c
f
(
)
{
if
(
--- /06_.c
f
(
)
{
if
(
.
--- /07.c
f
(
)
{
if
(
a
--- /07_.c
f
(
)
{
if
(
a
.
--- /08.c
f
(
)
{
if
(
a
)
--- /08_.c
f
(
)
{
if
(
a
)
.
--- /09.c
f
(
)
{
if
(
a
)
;
--- /09_.c
f
(
)
{
if
(
a
)
;
.
--- /10.c
f
(
)
{
if
(
a
)
;
else
--- /10_.c
f
(
)
{
if
(
a
)
;
else
.
--- /11.c
f
(
)
{
if
(
a
)
;
else
;
--- /11_.c
f
(
)
{
if
(
a
)
;
else
;
.
--- /12_.c
f
(
)
{
if
(
a
)
;
else
;
}
.
--- written
/01.c line 1: unexpected token
/01_.c line 2: unexpected token
/02.c line 2: unexpected token
/02_.c line 3: unexpected token
/03.c line 3: unexpected token
/03_.c line 4: unexpected token
/04.c line 4: unexpected token
/04_.c line 5: unexpected token
/05.c line 5: unexpected token
/05_.c line 6: unexpected token
/06.c line 6: unexpected token
/06_.c line 7: unexpected token
/07.c line 7: unexpected token
/07_.c line 8: unexpected token
/08.c line 8: unexpected token
/08_.c line 9: unexpected token
/09.c line 9: unexpected token
/09_.c line 10: unexpected token
/10.c line 10: unexpected token
/10_.c line 11: unexpected token
/11.c line 11: unexpected token
/11_.c line 12: unexpected token
/12_.c line 13: unexpected token
23 files, 23 faults

=== if_in_an_if
# f ( ) { if ( a ) if ( b ) ; else c ; else { } d ; }
--- /01.c
f
--- /01_.c
f
.
--- /02.c
f
(
--- /02_.c
f
(
.
--- /03.c
f
(
)
--- /03_.c
f
(
)
.
--- /04.c
f
(
)
{
--- /04_.c
f
(
)
{
.
--- /05.c
f
(
)
{
if
--- /05_.c
f
(
)
{
if
.
--- /06.c
f
(
)
{
if
(
--- /06_.c
f
(
)
{
if
(
.
--- /07.c
f
(
)
{
if
(
a
--- /07_.c
f
(
)
{
if
(
a
.
--- /08.c
f
(
)
{
if
(
a
)
--- /08_.c
f
(
)
{
if
(
a
)
.
--- /09.c
f
(
)
{
if
(
a
)
if
--- /09_.c
f
(
)
{
if
(
a
)
if
.
--- /10.c
f
(
)
{
if
(
a
)
if
(
--- /10_.c
f
(
)
{
if
(
a
)
if
(
.
--- /11.c
f
(
)
{
if
(
a
)
if
(
b
--- /11_.c
f
(
)
{
if
(
a
)
if
(
b
.
--- /12.c
f
(
)
{
if
(
a
)
if
(
b
)
--- /12_.c
f
(
)
{
if
(
a
)
if
(
b
)
.
--- /13.c
f
(
)
{
if
(
a
)
if
(
b
)
;
--- /13_.c
f
(
)
{
if
(
a
)
if
(
b
)
;
.
--- /14.c
f
(
)
{
if
(
a
)
if
(
b
)
;
else
--- /14_.c
f
(
)
{
if
(
a
)
if
(
b
)
;
else
.
--- /15.c
f
(
)
{
if
(
a
)
if
(
b
)
;
else
c
--- /15_.c
f
(
)
{
if
(
a
)
if
(
b
)
;
else
c
.
--- /16.c
f
(
)
{
if
(
a
)
if
(
b
)
;
else
c
;
--- /16_.c
f
(
)
{
if
(
a
)
if
(
b
)
;
else
c
;
.
--- /17.c
f
(
)
{
if
(
a
)
if
(
b
)
;
else
c
;
else
--- /17_.c
f
(
)
{
if
(
a
)
if
(
b
)
;
else
c
;
else
.
--- /18.c
f
(
)
{
if
(
a
)
if
(
b
)
;
else
c
;
else
{
--- /18_.c
f
(
)
{
if
(
a
)
if
(
b
)
;
else
c
;
else
{
.
--- /19.c
f
(
)
{
if
(
a
)
if
(
b
)
;
else
c
;
else
{
}
--- /19_.c
f
(
)
{
if
(
a
)
if
(
b
)
;
else
c
;
else
{
}
.
--- /20.c
f
(
)
{
if
(
a
)
if
(
b
)
;
else
c
;
else
{
}
d
--- /20_.c
f
(
)
{
if
(
a
)
if
(
b
)
;
else
c
;
else
{
}
d
.
--- /21.c
f
(
)
{
if
(
a
)
if
(
b
)
;
else
c
;
else
{
}
d
;
--- /21_.c
f
(
)
{
if
(
a
)
if
(
b
)
;
else
c
;
else
{
}
d
;
.
--- /22_.c
f
(
)
{
if
(
a
)
if
(
b
)
;
else
c
;
else
{
}
d
;
}
.
--- written
/01.c line 1: unexpected token
/01_.c line 2: unexpected token
/02.c line 2: unexpected token
/02_.c line 3: unexpected token
/03.c line 3: unexpected token
/03_.c line 4: unexpected token
/04.c line 4: unexpected token
/04_.c line 5: unexpected token
/05.c line 5: unexpected token
/05_.c line 6: unexpected token
/06.c line 6: unexpected token
/06_.c line 7: unexpected token
/07.c line 7: unexpected token
/07_.c line 8: unexpected token
/08.c line 8: unexpected token
/08_.c line 9: unexpected token
/09.c line 9: unexpected token
/09_.c line 10: unexpected token
/10.c line 10: unexpected token
/10_.c line 11: unexpected token
/11.c line 11: unexpected token
/11_.c line 12: unexpected token
/12.c line 12: unexpected token
/12_.c line 13: unexpected token
/13.c line 13: unexpected token
/13_.c line 14: unexpected token
/14.c line 14: unexpected token
/14_.c line 15: unexpected token
/15.c line 15: unexpected token
/15_.c line 16: unexpected token
/16.c line 16: unexpected token
/16_.c line 17: unexpected token
/17.c line 17: unexpected token
/17_.c line 18: unexpected token
/18.c line 18: unexpected token
/18_.c line 19: unexpected token
/19.c line 19: unexpected token
/19_.c line 20: unexpected token
/20.c line 20: unexpected token
/20_.c line 21: unexpected token
/21.c line 21: unexpected token
/21_.c line 22: unexpected token
/22_.c line 23: unexpected token
43 files, 43 faults

=== loops_in_an_if
# f ( ) { if ( a , b ) while ( c ) ; else do ; while ( d ) ; }
--- /01.c
f
--- /01_.c
f
.
--- /02.c
f
(
--- /02_.c
f
(
.
--- /03.c
f
(
)
--- /03_.c
f
(
)
.
--- /04.c
f
(
)
{
--- /04_.c
f
(
)
{
.
--- /05.c
f
(
)
{
if
--- /05_.c
f
(
)
{
if
.
--- /06.c
f
(
)
{
if
(
--- /06_.c
f
(
)
{
if
(
.
--- /07.c
f
(
)
{
if
(
a
--- /07_.c
f
(
)
{
if
(
a
.
--- /08.c
f
(
)
{
if
(
a
,
--- /08_.c
f
(
)
{
if
(
a
,
.
--- /09.c
f
(
)
{
if
(
a
,
b
--- /09_.c
f
(
)
{
if
(
a
,
b
.
--- /10.c
f
(
)
{
if
(
a
,
b
)
--- /10_.c
f
(
)
{
if
(
a
,
b
)
.
--- /11.c
f
(
)
{
if
(
a
,
b
)
while
--- /11_.c
f
(
)
{
if
(
a
,
b
)
while
.
--- /12.c
f
(
)
{
if
(
a
,
b
)
while
(
--- /12_.c
f
(
)
{
if
(
a
,
b
)
while
(
.
--- /13.c
f
(
)
{
if
(
a
,
b
)
while
(
c
--- /13_.c
f
(
)
{
if
(
a
,
b
)
while
(
c
.
--- /14.c
f
(
)
{
if
(
a
,
b
)
while
(
c
)
--- /14_.c
f
(
)
{
if
(
a
,
b
)
while
(
c
)
.
--- /15.c
f
(
)
{
if
(
a
,
b
)
while
(
c
)
;
--- /15_.c
f
(
)
{
if
(
a
,
b
)
while
(
c
)
;
.
--- /16.c
f
(
)
{
if
(
a
,
b
)
while
(
c
)
;
else
--- /16_.c
f
(
)
{
if
(
a
,
b
)
while
(
c
)
;
else
.
--- /17.c
f
(
)
{
if
(
a
,
b
)
while
(
c
)
;
else
do
--- /17_.c
f
(
)
{
if
(
a
,
b
)
while
(
c
)
;
else
do
.
--- /18.c
f
(
)
{
if
(
a
,
b
)
while
(
c
)
;
else
do
;
--- /18_.c
f
(
)
{
if
(
a
,
b
)
while
(
c
)
;
else
do
;
.
--- /19.c
f
(
)
{
if
(
a
,
b
)
while
(
c
)
;
else
do
;
while
--- /19_.c
f
(
)
{
if
(
a
,
b
)
while
(
c
)
;
else
do
;
while
.
--- /20.c
f
(
)
{
if
(
a
,
b
)
while
(
c
)
;
else
do
;
while
(
--- /20_.c
f
(
)
{
if
(
a
,
b
)
while
(
c
)
;
else
do
;
while
(
.
--- /21.c
f
(
)
{
if
(
a
,
b
)
while
(
c
)
;
else
do
;
while
(
d
--- /21_.c
f
(
)
{
if
(
a
,
b
)
while
(
c
)
;
else
do
;
while
(
d
.
--- /22.c
f
(
)
{
if
(
a
,
b
)
while
(
c
)
;
else
do
;
while
(
d
)
--- /22_.c
f
(
)
{
if
(
a
,
b
)
while
(
c
)
;
else
do
;
while
(
d
)
.
--- /23.c
f
(
)
{
if
(
a
,
b
)
while
(
c
)
;
else
do
;
while
(
d
)
;
--- /23_.c
f
(
)
{
if
(
a
,
b
)
while
(
c
)
;
else
do
;
while
(
d
)
;
.
--- /24_.c
f
(
)
{
if
(
a
,
b
)
while
(
c
)
;
else
do
;
while
(
d
)
;
}
.
--- written
/01.c line 1: unexpected token
/01_.c line 2: unexpected token
/02.c line 2: unexpected token
/02_.c line 3: unexpected token
/03.c line 3: unexpected token
/03_.c line 4: unexpected token
/04.c line 4: unexpected token
/04_.c line 5: unexpected token
/05.c line 5: unexpected token
/05_.c line 6: unexpected token
/06.c line 6: unexpected token
/06_.c line 7: unexpected token
/07.c line 7: unexpected token
/07_.c line 8: unexpected token
/08.c line 8: unexpected token
/08_.c line 9: unexpected token
/09.c line 9: unexpected token
/09_.c line 10: unexpected token
/10.c line 10: unexpected token
/10_.c line 11: unexpected token
/11.c line 11: unexpected token
/11_.c line 12: unexpected token
/12.c line 12: unexpected token
/12_.c line 13: unexpected token
/13.c line 13: unexpected token
/13_.c line 14: unexpected token
/14.c line 14: unexpected token
/14_.c line 15: unexpected token
/15.c line 15: unexpected token
/15_.c line 16: unexpected token
/16.c line 16: unexpected token
/16_.c line 17: unexpected token
/17.c line 17: unexpected token
/17_.c line 18: unexpected token
/18.c line 18: unexpected token
/18_.c line 19: unexpected token
/19.c line 19: unexpected token
/19_.c line 20: unexpected token
/20.c line 20: unexpected token
/20_.c line 21: unexpected token
/21.c line 21: unexpected token
/21_.c line 22: unexpected token
/22.c line 22: unexpected token
/22_.c line 23: unexpected token
/23.c line 23: unexpected token
/23_.c line 24: unexpected token
/24_.c line 25: unexpected token
47 files, 47 faults

=== while
# f ( ) { while ( a ) { break ; continue ; } }
--- /01.c
f
--- /01_.c
f
.
--- /02.c
f
(
--- /02_.c
f
(
.
--- /03.c
f
(
)
--- /03_.c
f
(
)
.
--- /04.c
f
(
)
{
--- /04_.c
f
(
)
{
.
--- /05.c
f
(
)
{
while
--- /05_.c
f
(
)
{
while
.
--- /06.c
f
(
)
{
while
(
--- /06_.c
f
(
)
{
while
(
.
--- /07.c
f
(
)
{
while
(
a
--- /07_.c
f
(
)
{
while
(
a
.
--- /08.c
f
(
)
{
while
(
a
)
--- /08_.c
f
(
)
{
while
(
a
)
.
--- /09.c
f
(
)
{
while
(
a
)
{
--- /09_.c
f
(
)
{
while
(
a
)
{
.
--- /10.c
f
(
)
{
while
(
a
)
{
break
--- /10_.c
f
(
)
{
while
(
a
)
{
break
.
--- /11.c
f
(
)
{
while
(
a
)
{
break
;
--- /11_.c
f
(
)
{
while
(
a
)
{
break
;
.
--- /12.c
f
(
)
{
while
(
a
)
{
break
;
continue
--- /12_.c
f
(
)
{
while
(
a
)
{
break
;
continue
.
--- /13.c
f
(
)
{
while
(
a
)
{
break
;
continue
;
--- /13_.c
f
(
)
{
while
(
a
)
{
break
;
continue
;
.
--- /14.c
f
(
)
{
while
(
a
)
{
break
;
continue
;
}
--- /14_.c
f
(
)
{
while
(
a
)
{
break
;
continue
;
}
.
--- /15_.c
f
(
)
{
while
(
a
)
{
break
;
continue
;
}
}
.
--- written
/01.c line 1: unexpected token
/01_.c line 2: unexpected token
/02.c line 2: unexpected token
/02_.c line 3: unexpected token
/03.c line 3: unexpected token
/03_.c line 4: unexpected token
/04.c line 4: unexpected token
/04_.c line 5: unexpected token
/05.c line 5: unexpected token
/05_.c line 6: unexpected token
/06.c line 6: unexpected token
/06_.c line 7: unexpected token
/07.c line 7: unexpected token
/07_.c line 8: unexpected token
/08.c line 8: unexpected token
/08_.c line 9: unexpected token
/09.c line 9: unexpected token
/09_.c line 10: unexpected token
/10.c line 10: unexpected token
/10_.c line 11: unexpected token
/11.c line 11: unexpected token
/11_.c line 12: unexpected token
/12.c line 12: unexpected token
/12_.c line 13: unexpected token
/13.c line 13: unexpected token
/13_.c line 14: unexpected token
/14.c line 14: unexpected token
/14_.c line 15: unexpected token
/15_.c line 16: unexpected token
29 files, 29 faults

=== do
# f ( ) { do a ; while ( b ) ; ; }
--- /01.c
f
--- /01_.c
f
.
--- /02.c
f
(
--- /02_.c
f
(
.
--- /03.c
f
(
)
--- /03_.c
f
(
)
.
--- /04.c
f
(
)
{
--- /04_.c
f
(
)
{
.
--- /05.c
f
(
)
{
do
--- /05_.c
f
(
)
{
do
.
--- /06.c
f
(
)
{
do
a
--- /06_.c
f
(
)
{
do
a
.
--- /07.c
f
(
)
{
do
a
;
--- /07_.c
f
(
)
{
do
a
;
.
--- /08.c
f
(
)
{
do
a
;
while
--- /08_.c
f
(
)
{
do
a
;
while
.
--- /09.c
f
(
)
{
do
a
;
while
(
--- /09_.c
f
(
)
{
do
a
;
while
(
.
--- /10.c
f
(
)
{
do
a
;
while
(
b
--- /10_.c
f
(
)
{
do
a
;
while
(
b
.
--- /11.c
f
(
)
{
do
a
;
while
(
b
)
--- /11_.c
f
(
)
{
do
a
;
while
(
b
)
.
--- /12.c
f
(
)
{
do
a
;
while
(
b
)
;
--- /12_.c
f
(
)
{
do
a
;
while
(
b
)
;
.
--- /13.c
f
(
)
{
do
a
;
while
(
b
)
;
;
--- /13_.c
f
(
)
{
do
a
;
while
(
b
)
;
;
.
--- /14_.c
f
(
)
{
do
a
;
while
(
b
)
;
;
}
.
--- written
/01.c line 1: unexpected token
/01_.c line 2: unexpected token
/02.c line 2: unexpected token
/02_.c line 3: unexpected token
/03.c line 3: unexpected token
/03_.c line 4: unexpected token
/04.c line 4: unexpected token
/04_.c line 5: unexpected token
/05.c line 5: unexpected token
/05_.c line 6: unexpected token
/06.c line 6: unexpected token
/06_.c line 7: unexpected token
/07.c line 7: unexpected token
/07_.c line 8: unexpected token
/08.c line 8: unexpected token
/08_.c line 9: unexpected token
/09.c line 9: unexpected token
/09_.c line 10: unexpected token
/10.c line 10: unexpected token
/10_.c line 11: unexpected token
/11.c line 11: unexpected token
/11_.c line 12: unexpected token
/12.c line 12: unexpected token
/12_.c line 13: unexpected token
/13.c line 13: unexpected token
/13_.c line 14: unexpected token
/14_.c line 15: unexpected token
27 files, 27 faults

=== if_in_a_do
# f ( ) { do if ( a ) ; while ( b ) ; }
--- /01.c
f
--- /01_.c
f
.
--- /02.c
f
(
--- /02_.c
f
(
.
--- /03.c
f
(
)
--- /03_.c
f
(
)
.
--- /04.c
f
(
)
{
--- /04_.c
f
(
)
{
.
--- /05.c
f
(
)
{
do
--- /05_.c
f
(
)
{
do
.
--- /06.c
f
(
)
{
do
if
--- /06_.c
f
(
)
{
do
if
.
--- /07.c
f
(
)
{
do
if
(
--- /07_.c
f
(
)
{
do
if
(
.
--- /08.c
f
(
)
{
do
if
(
a
--- /08_.c
f
(
)
{
do
if
(
a
.
--- /09.c
f
(
)
{
do
if
(
a
)
--- /09_.c
f
(
)
{
do
if
(
a
)
.
--- /10.c
f
(
)
{
do
if
(
a
)
;
--- /10_.c
f
(
)
{
do
if
(
a
)
;
.
--- /11.c
f
(
)
{
do
if
(
a
)
;
while
--- /11_.c
f
(
)
{
do
if
(
a
)
;
while
.
--- /12.c
f
(
)
{
do
if
(
a
)
;
while
(
--- /12_.c
f
(
)
{
do
if
(
a
)
;
while
(
.
--- /13.c
f
(
)
{
do
if
(
a
)
;
while
(
b
--- /13_.c
f
(
)
{
do
if
(
a
)
;
while
(
b
.
--- /14.c
f
(
)
{
do
if
(
a
)
;
while
(
b
)
--- /14_.c
f
(
)
{
do
if
(
a
)
;
while
(
b
)
.
--- /15.c
f
(
)
{
do
if
(
a
)
;
while
(
b
)
;
--- /15_.c
f
(
)
{
do
if
(
a
)
;
while
(
b
)
;
.
--- /16_.c
f
(
)
{
do
if
(
a
)
;
while
(
b
)
;
}
.
--- written
/01.c line 1: unexpected token
/01_.c line 2: unexpected token
/02.c line 2: unexpected token
/02_.c line 3: unexpected token
/03.c line 3: unexpected token
/03_.c line 4: unexpected token
/04.c line 4: unexpected token
/04_.c line 5: unexpected token
/05.c line 5: unexpected token
/05_.c line 6: unexpected token
/06.c line 6: unexpected token
/06_.c line 7: unexpected token
/07.c line 7: unexpected token
/07_.c line 8: unexpected token
/08.c line 8: unexpected token
/08_.c line 9: unexpected token
/09.c line 9: unexpected token
/09_.c line 10: unexpected token
/10.c line 10: unexpected token
/10_.c line 11: unexpected token
/11.c line 11: unexpected token
/11_.c line 12: unexpected token
/12.c line 12: unexpected token
/12_.c line 13: unexpected token
/13.c line 13: unexpected token
/13_.c line 14: unexpected token
/14.c line 14: unexpected token
/14_.c line 15: unexpected token
/15.c line 15: unexpected token
/15_.c line 16: unexpected token
/16_.c line 17: unexpected token
31 files, 31 faults

=== for_without_parts
# f ( ) { for ( ; ; ) ; }
--- /01.c
f
--- /01_.c
f
.
--- /02.c
f
(
--- /02_.c
f
(
.
--- /03.c
f
(
)
--- /03_.c
f
(
)
.
--- /04.c
f
(
)
{
--- /04_.c
f
(
)
{
.
--- /05.c
f
(
)
{
for
--- /05_.c
f
(
)
{
for
.
--- /06.c
f
(
)
{
for
(
--- /06_.c
f
(
)
{
for
(
.
--- /07.c
f
(
)
{
for
(
;
--- /07_.c
f
(
)
{
for
(
;
.
--- /08.c
f
(
)
{
for
(
;
;
--- /08_.c
f
(
)
{
for
(
;
;
.
--- /09.c
f
(
)
{
for
(
;
;
)
--- /09_.c
f
(
)
{
for
(
;
;
)
.
--- /10.c
f
(
)
{
for
(
;
;
)
;
--- /10_.c
f
(
)
{
for
(
;
;
)
;
.
--- /11_.c
f
(
)
{
for
(
;
;
)
;
}
.
--- written
/01.c line 1: unexpected token
/01_.c line 2: unexpected token
/02.c line 2: unexpected token
/02_.c line 3: unexpected token
/03.c line 3: unexpected token
/03_.c line 4: unexpected token
/04.c line 4: unexpected token
/04_.c line 5: unexpected token
/05.c line 5: unexpected token
/05_.c line 6: unexpected token
/06.c line 6: unexpected token
/06_.c line 7: unexpected token
/07.c line 7: unexpected token
/07_.c line 8: unexpected token
/08.c line 8: unexpected token
/08_.c line 9: unexpected token
/09.c line 9: unexpected token
/09_.c line 10: unexpected token
/10.c line 10: unexpected token
/10_.c line 11: unexpected token
/11_.c line 12: unexpected token
21 files, 21 faults

=== for_with_parts
# f ( ) { for ( a ; b ; c ) ; }
--- /01.c
f
--- /01_.c
f
.
--- /02.c
f
(
--- /02_.c
f
(
.
--- /03.c
f
(
)
--- /03_.c
f
(
)
.
--- /04.c
f
(
)
{
--- /04_.c
f
(
)
{
.
--- /05.c
f
(
)
{
for
--- /05_.c
f
(
)
{
for
.
--- /06.c
f
(
)
{
for
(
--- /06_.c
f
(
)
{
for
(
.
--- /07.c
f
(
)
{
for
(
a
--- /07_.c
f
(
)
{
for
(
a
.
--- /08.c
f
(
)
{
for
(
a
;
--- /08_.c
f
(
)
{
for
(
a
;
.
--- /09.c
f
(
)
{
for
(
a
;
b
--- /09_.c
f
(
)
{
for
(
a
;
b
.
--- /10.c
f
(
)
{
for
(
a
;
b
;
--- /10_.c
f
(
)
{
for
(
a
;
b
;
.
--- /11.c
f
(
)
{
for
(
a
;
b
;
c
--- /11_.c
f
(
)
{
for
(
a
;
b
;
c
.
--- /12.c
f
(
)
{
for
(
a
;
b
;
c
)
--- /12_.c
f
(
)
{
for
(
a
;
b
;
c
)
.
--- /13.c
f
(
)
{
for
(
a
;
b
;
c
)
;
--- /13_.c
f
(
)
{
for
(
a
;
b
;
c
)
;
.
--- /14_.c
f
(
)
{
for
(
a
;
b
;
c
)
;
}
.
--- written
/01.c line 1: unexpected token
/01_.c line 2: unexpected token
/02.c line 2: unexpected token
/02_.c line 3: unexpected token
/03.c line 3: unexpected token
/03_.c line 4: unexpected token
/04.c line 4: unexpected token
/04_.c line 5: unexpected token
/05.c line 5: unexpected token
/05_.c line 6: unexpected token
/06.c line 6: unexpected token
/06_.c line 7: unexpected token
/07.c line 7: unexpected token
/07_.c line 8: unexpected token
/08.c line 8: unexpected token
/08_.c line 9: unexpected token
/09.c line 9: unexpected token
/09_.c line 10: unexpected token
/10.c line 10: unexpected token
/10_.c line 11: unexpected token
/11.c line 11: unexpected token
/11_.c line 12: unexpected token
/12.c line 12: unexpected token
/12_.c line 13: unexpected token
/13.c line 13: unexpected token
/13_.c line 14: unexpected token
/14_.c line 15: unexpected token
27 files, 27 faults

=== for_with_a_sequence
# f ( ) { for ( a = 1 , b = 2 ; ; ) break ; }
--- /01.c
f
--- /01_.c
f
.
--- /02.c
f
(
--- /02_.c
f
(
.
--- /03.c
f
(
)
--- /03_.c
f
(
)
.
--- /04.c
f
(
)
{
--- /04_.c
f
(
)
{
.
--- /05.c
f
(
)
{
for
--- /05_.c
f
(
)
{
for
.
--- /06.c
f
(
)
{
for
(
--- /06_.c
f
(
)
{
for
(
.
--- /07.c
f
(
)
{
for
(
a
--- /07_.c
f
(
)
{
for
(
a
.
--- /08.c
f
(
)
{
for
(
a
=
--- /08_.c
f
(
)
{
for
(
a
=
.
--- /09.c
f
(
)
{
for
(
a
=
1
--- /09_.c
f
(
)
{
for
(
a
=
1
.
--- /10.c
f
(
)
{
for
(
a
=
1
,
--- /10_.c
f
(
)
{
for
(
a
=
1
,
.
--- /11.c
f
(
)
{
for
(
a
=
1
,
b
--- /11_.c
f
(
)
{
for
(
a
=
1
,
b
.
--- /12.c
f
(
)
{
for
(
a
=
1
,
b
=
--- /12_.c
f
(
)
{
for
(
a
=
1
,
b
=
.
--- /13.c
f
(
)
{
for
(
a
=
1
,
b
=
2
--- /13_.c
f
(
)
{
for
(
a
=
1
,
b
=
2
.
--- /14.c
f
(
)
{
for
(
a
=
1
,
b
=
2
;
--- /14_.c
f
(
)
{
for
(
a
=
1
,
b
=
2
;
.
--- /15.c
f
(
)
{
for
(
a
=
1
,
b
=
2
;
;
--- /15_.c
f
(
)
{
for
(
a
=
1
,
b
=
2
;
;
.
--- /16.c
f
(
)
{
for
(
a
=
1
,
b
=
2
;
;
)
--- /16_.c
f
(
)
{
for
(
a
=
1
,
b
=
2
;
;
)
.
--- /17.c
f
(
)
{
for
(
a
=
1
,
b
=
2
;
;
)
break
--- /17_.c
f
(
)
{
for
(
a
=
1
,
b
=
2
;
;
)
break
.
--- /18.c
f
(
)
{
for
(
a
=
1
,
b
=
2
;
;
)
break
;
--- /18_.c
f
(
)
{
for
(
a
=
1
,
b
=
2
;
;
)
break
;
.
--- /19_.c
f
(
)
{
for
(
a
=
1
,
b
=
2
;
;
)
break
;
}
.
--- written
/01.c line 1: unexpected token
/01_.c line 2: unexpected token
/02.c line 2: unexpected token
/02_.c line 3: unexpected token
/03.c line 3: unexpected token
/03_.c line 4: unexpected token
/04.c line 4: unexpected token
/04_.c line 5: unexpected token
/05.c line 5: unexpected token
/05_.c line 6: unexpected token
/06.c line 6: unexpected token
/06_.c line 7: unexpected token
/07.c line 7: unexpected token
/07_.c line 8: unexpected token
/08.c line 8: unexpected token
/08_.c line 9: unexpected token
/09.c line 9: unexpected token
/09_.c line 10: unexpected token
/10.c line 10: unexpected token
/10_.c line 11: unexpected token
/11.c line 11: unexpected token
/11_.c line 12: unexpected token
/12.c line 12: unexpected token
/12_.c line 13: unexpected token
/13.c line 13: unexpected token
/13_.c line 14: unexpected token
/14.c line 14: unexpected token
/14_.c line 15: unexpected token
/15.c line 15: unexpected token
/15_.c line 16: unexpected token
/16.c line 16: unexpected token
/16_.c line 17: unexpected token
/17.c line 17: unexpected token
/17_.c line 18: unexpected token
/18.c line 18: unexpected token
/18_.c line 19: unexpected token
/19_.c line 20: unexpected token
37 files, 37 faults

=== for_with_a_declaration
# f ( ) { for ( int a = 1 , * b ; a < 2 ; a ++ ) continue ; }
--- /01.c
f
--- /01_.c
f
.
--- /02.c
f
(
--- /02_.c
f
(
.
--- /03.c
f
(
)
--- /03_.c
f
(
)
.
--- /04.c
f
(
)
{
--- /04_.c
f
(
)
{
.
--- /05.c
f
(
)
{
for
--- /05_.c
f
(
)
{
for
.
--- /06.c
f
(
)
{
for
(
--- /06_.c
f
(
)
{
for
(
.
--- /07.c
f
(
)
{
for
(
int
--- /07_.c
f
(
)
{
for
(
int
.
--- /08.c
f
(
)
{
for
(
int
a
--- /08_.c
f
(
)
{
for
(
int
a
.
--- /09.c
f
(
)
{
for
(
int
a
=
--- /09_.c
f
(
)
{
for
(
int
a
=
.
--- /10.c
f
(
)
{
for
(
int
a
=
1
--- /10_.c
f
(
)
{
for
(
int
a
=
1
.
--- /11.c
f
(
)
{
for
(
int
a
=
1
,
--- /11_.c
f
(
)
{
for
(
int
a
=
1
,
.
--- /12.c
f
(
)
{
for
(
int
a
=
1
,
*
--- /12_.c
f
(
)
{
for
(
int
a
=
1
,
*
.
--- /13.c
f
(
)
{
for
(
int
a
=
1
,
*
b
--- /13_.c
f
(
)
{
for
(
int
a
=
1
,
*
b
.
--- /14.c
f
(
)
{
for
(
int
a
=
1
,
*
b
;
--- /14_.c
f
(
)
{
for
(
int
a
=
1
,
*
b
;
.
--- /15.c
f
(
)
{
for
(
int
a
=
1
,
*
b
;
a
--- /15_.c
f
(
)
{
for
(
int
a
=
1
,
*
b
;
a
.
--- /16.c
f
(
)
{
for
(
int
a
=
1
,
*
b
;
a
<
--- /16_.c
f
(
)
{
for
(
int
a
=
1
,
*
b
;
a
<
.
--- /17.c
f
(
)
{
for
(
int
a
=
1
,
*
b
;
a
<
2
--- /17_.c
f
(
)
{
for
(
int
a
=
1
,
*
b
;
a
<
2
.
--- /18.c
f
(
)
{
for
(
int
a
=
1
,
*
b
;
a
<
2
;
--- /18_.c
f
(
)
{
for
(
int
a
=
1
,
*
b
;
a
<
2
;
.
--- /19.c
f
(
)
{
for
(
int
a
=
1
,
*
b
;
a
<
2
;
a
--- /19_.c
f
(
)
{
for
(
int
a
=
1
,
*
b
;
a
<
2
;
a
.
--- /20.c
f
(
)
{
for
(
int
a
=
1
,
*
b
;
a
<
2
;
a
++
--- /20_.c
f
(
)
{
for
(
int
a
=
1
,
*
b
;
a
<
2
;
a
++
.
--- /21.c
f
(
)
{
for
(
int
a
=
1
,
*
b
;
a
<
2
;
a
++
)
--- /21_.c
f
(
)
{
for
(
int
a
=
1
,
*
b
;
a
<
2
;
a
++
)
.
--- /22.c
f
(
)
{
for
(
int
a
=
1
,
*
b
;
a
<
2
;
a
++
)
continue
--- /22_.c
f
(
)
{
for
(
int
a
=
1
,
*
b
;
a
<
2
;
a
++
)
continue
.
--- /23.c
f
(
)
{
for
(
int
a
=
1
,
*
b
;
a
<
2
;
a
++
)
continue
;
--- /23_.c
f
(
)
{
for
(
int
a
=
1
,
*
b
;
a
<
2
;
a
++
)
continue
;
.
--- /24_.c
f
(
)
{
for
(
int
a
=
1
,
*
b
;
a
<
2
;
a
++
)
continue
;
}
.
--- written
/01.c line 1: unexpected token
/01_.c line 2: unexpected token
/02.c line 2: unexpected token
/02_.c line 3: unexpected token
/03.c line 3: unexpected token
/03_.c line 4: unexpected token
/04.c line 4: unexpected token
/04_.c line 5: unexpected token
/05.c line 5: unexpected token
/05_.c line 6: unexpected token
/06.c line 6: unexpected token
/06_.c line 7: unexpected token
/07.c line 7: unexpected token
/07_.c line 8: unexpected token
/08.c line 8: unexpected token
/08_.c line 9: unexpected token
/09.c line 9: unexpected token
/09_.c line 10: unexpected token
/10.c line 10: unexpected token
/10_.c line 11: unexpected token
/11.c line 11: unexpected token
/11_.c line 12: unexpected token
/12.c line 12: unexpected token
/12_.c line 13: unexpected token
/13.c line 13: unexpected token
/13_.c line 14: unexpected token
/14.c line 14: unexpected token
/14_.c line 15: unexpected token
/15.c line 15: unexpected token
/15_.c line 16: unexpected token
/16.c line 16: unexpected token
/16_.c line 17: unexpected token
/17.c line 17: unexpected token
/17_.c line 18: unexpected token
/18.c line 18: unexpected token
/18_.c line 19: unexpected token
/19.c line 19: unexpected token
/19_.c line 20: unexpected token
/20.c line 20: unexpected token
/20_.c line 21: unexpected token
/21.c line 21: unexpected token
/21_.c line 22: unexpected token
/22.c line 22: unexpected token
/22_.c line 23: unexpected token
/23.c line 23: unexpected token
/23_.c line 24: unexpected token
/24_.c line 25: unexpected token
47 files, 47 faults

=== for_with_a_declaration_and_a_step
# f ( ) { for ( int a ; ; b ) ; }
--- /01.c
f
--- /01_.c
f
.
--- /02.c
f
(
--- /02_.c
f
(
.
--- /03.c
f
(
)
--- /03_.c
f
(
)
.
--- /04.c
f
(
)
{
--- /04_.c
f
(
)
{
.
--- /05.c
f
(
)
{
for
--- /05_.c
f
(
)
{
for
.
--- /06.c
f
(
)
{
for
(
--- /06_.c
f
(
)
{
for
(
.
--- /07.c
f
(
)
{
for
(
int
--- /07_.c
f
(
)
{
for
(
int
.
--- /08.c
f
(
)
{
for
(
int
a
--- /08_.c
f
(
)
{
for
(
int
a
.
--- /09.c
f
(
)
{
for
(
int
a
;
--- /09_.c
f
(
)
{
for
(
int
a
;
.
--- /10.c
f
(
)
{
for
(
int
a
;
;
--- /10_.c
f
(
)
{
for
(
int
a
;
;
.
--- /11.c
f
(
)
{
for
(
int
a
;
;
b
--- /11_.c
f
(
)
{
for
(
int
a
;
;
b
.
--- /12.c
f
(
)
{
for
(
int
a
;
;
b
)
--- /12_.c
f
(
)
{
for
(
int
a
;
;
b
)
.
--- /13.c
f
(
)
{
for
(
int
a
;
;
b
)
;
--- /13_.c
f
(
)
{
for
(
int
a
;
;
b
)
;
.
--- /14_.c
f
(
)
{
for
(
int
a
;
;
b
)
;
}
.
--- written
/01.c line 1: unexpected token
/01_.c line 2: unexpected token
/02.c line 2: unexpected token
/02_.c line 3: unexpected token
/03.c line 3: unexpected token
/03_.c line 4: unexpected token
/04.c line 4: unexpected token
/04_.c line 5: unexpected token
/05.c line 5: unexpected token
/05_.c line 6: unexpected token
/06.c line 6: unexpected token
/06_.c line 7: unexpected token
/07.c line 7: unexpected token
/07_.c line 8: unexpected token
/08.c line 8: unexpected token
/08_.c line 9: unexpected token
/09.c line 9: unexpected token
/09_.c line 10: unexpected token
/10.c line 10: unexpected token
/10_.c line 11: unexpected token
/11.c line 11: unexpected token
/11_.c line 12: unexpected token
/12.c line 12: unexpected token
/12_.c line 13: unexpected token
/13.c line 13: unexpected token
/13_.c line 14: unexpected token
/14_.c line 15: unexpected token
27 files, 27 faults

=== foreach
# f ( ) { foreach ( a : b ) ; }
--- /01.c
f
--- /01_.c
f
.
--- /02.c
f
(
--- /02_.c
f
(
.
--- /03.c
f
(
)
--- /03_.c
f
(
)
.
--- /04.c
f
(
)
{
--- /04_.c
f
(
)
{
.
--- /05.c
f
(
)
{
foreach
--- /05_.c
f
(
)
{
foreach
.
--- /06.c
f
(
)
{
foreach
(
--- /06_.c
f
(
)
{
foreach
(
.
--- /07.c
f
(
)
{
foreach
(
a
--- /07_.c
f
(
)
{
foreach
(
a
.
--- /08.c
f
(
)
{
foreach
(
a
:
--- /08_.c
f
(
)
{
foreach
(
a
:
.
--- /09.c
f
(
)
{
foreach
(
a
:
b
--- /09_.c
f
(
)
{
foreach
(
a
:
b
.
--- /10.c
f
(
)
{
foreach
(
a
:
b
)
--- /10_.c
f
(
)
{
foreach
(
a
:
b
)
.
--- /11.c
f
(
)
{
foreach
(
a
:
b
)
;
--- /11_.c
f
(
)
{
foreach
(
a
:
b
)
;
.
--- /12_.c
f
(
)
{
foreach
(
a
:
b
)
;
}
.
--- written
/01.c line 1: unexpected token
/01_.c line 2: unexpected token
/02.c line 2: unexpected token
/02_.c line 3: unexpected token
/03.c line 3: unexpected token
/03_.c line 4: unexpected token
/04.c line 4: unexpected token
/04_.c line 5: unexpected token
/05.c line 5: unexpected token
/05_.c line 6: unexpected token
/06.c line 6: unexpected token
/06_.c line 7: unexpected token
/07.c line 7: unexpected token
/07_.c line 8: unexpected token
/08.c line 8: unexpected token
/08_.c line 9: unexpected token
/09.c line 9: unexpected token
/09_.c line 10: unexpected token
/10.c line 10: unexpected token
/10_.c line 11: unexpected token
/11.c line 11: unexpected token
/11_.c line 12: unexpected token
/12_.c line 13: unexpected token
23 files, 23 faults

=== foreach_with_in
# f ( ) { foreach ( a in b ) ; }
--- /01.c
f
--- /01_.c
f
.
--- /02.c
f
(
--- /02_.c
f
(
.
--- /03.c
f
(
)
--- /03_.c
f
(
)
.
--- /04.c
f
(
)
{
--- /04_.c
f
(
)
{
.
--- /05.c
f
(
)
{
foreach
--- /05_.c
f
(
)
{
foreach
.
--- /06.c
f
(
)
{
foreach
(
--- /06_.c
f
(
)
{
foreach
(
.
--- /07.c
f
(
)
{
foreach
(
a
--- /07_.c
f
(
)
{
foreach
(
a
.
--- /08.c
f
(
)
{
foreach
(
a
in
--- /08_.c
f
(
)
{
foreach
(
a
in
.
--- /09.c
f
(
)
{
foreach
(
a
in
b
--- /09_.c
f
(
)
{
foreach
(
a
in
b
.
--- /10.c
f
(
)
{
foreach
(
a
in
b
)
--- /10_.c
f
(
)
{
foreach
(
a
in
b
)
.
--- /11.c
f
(
)
{
foreach
(
a
in
b
)
;
--- /11_.c
f
(
)
{
foreach
(
a
in
b
)
;
.
--- /12_.c
f
(
)
{
foreach
(
a
in
b
)
;
}
.
--- written
/01.c line 1: unexpected token
/01_.c line 2: unexpected token
/02.c line 2: unexpected token
/02_.c line 3: unexpected token
/03.c line 3: unexpected token
/03_.c line 4: unexpected token
/04.c line 4: unexpected token
/04_.c line 5: unexpected token
/05.c line 5: unexpected token
/05_.c line 6: unexpected token
/06.c line 6: unexpected token
/06_.c line 7: unexpected token
/07.c line 7: unexpected token
/07_.c line 8: unexpected token
/08.c line 8: unexpected token
/08_.c line 9: unexpected token
/09.c line 9: unexpected token
/09_.c line 10: unexpected token
/10.c line 10: unexpected token
/10_.c line 11: unexpected token
/11.c line 11: unexpected token
/11_.c line 12: unexpected token
/12_.c line 13: unexpected token
23 files, 23 faults

=== foreach_of_the_name_in
# f ( ) { foreach ( in in in ) ; }
--- /01.c
f
--- /01_.c
f
.
--- /02.c
f
(
--- /02_.c
f
(
.
--- /03.c
f
(
)
--- /03_.c
f
(
)
.
--- /04.c
f
(
)
{
--- /04_.c
f
(
)
{
.
--- /05.c
f
(
)
{
foreach
--- /05_.c
f
(
)
{
foreach
.
--- /06.c
f
(
)
{
foreach
(
--- /06_.c
f
(
)
{
foreach
(
.
--- /07.c
f
(
)
{
foreach
(
in
--- /07_.c
f
(
)
{
foreach
(
in
.
--- /08.c
f
(
)
{
foreach
(
in
in
--- /08_.c
f
(
)
{
foreach
(
in
in
.
--- /09.c
f
(
)
{
foreach
(
in
in
in
--- /09_.c
f
(
)
{
foreach
(
in
in
in
.
--- /10.c
f
(
)
{
foreach
(
in
in
in
)
--- /10_.c
f
(
)
{
foreach
(
in
in
in
)
.
--- /11.c
f
(
)
{
foreach
(
in
in
in
)
;
--- /11_.c
f
(
)
{
foreach
(
in
in
in
)
;
.
--- /12_.c
f
(
)
{
foreach
(
in
in
in
)
;
}
.
--- written
/01.c line 1: unexpected token
/01_.c line 2: unexpected token
/02.c line 2: unexpected token
/02_.c line 3: unexpected token
/03.c line 3: unexpected token
/03_.c line 4: unexpected token
/04.c line 4: unexpected token
/04_.c line 5: unexpected token
/05.c line 5: unexpected token
/05_.c line 6: unexpected token
/06.c line 6: unexpected token
/06_.c line 7: unexpected token
/07.c line 7: unexpected token
/07_.c line 8: unexpected token
/08.c line 8: unexpected token
/08_.c line 9: unexpected token
/09.c line 9: unexpected token
/09_.c line 10: unexpected token
/10.c line 10: unexpected token
/10_.c line 11: unexpected token
/11.c line 11: unexpected token
/11_.c line 12: unexpected token
/12_.c line 13: unexpected token
23 files, 23 faults

=== foreach_of_two_with_types
# f ( ) { foreach ( int a , string * * b : c ) break ; }
--- /01.c
f
--- /01_.c
f
.
--- /02.c
f
(
--- /02_.c
f
(
.
--- /03.c
f
(
)
--- /03_.c
f
(
)
.
--- /04.c
f
(
)
{
--- /04_.c
f
(
)
{
.
--- /05.c
f
(
)
{
foreach
--- /05_.c
f
(
)
{
foreach
.
--- /06.c
f
(
)
{
foreach
(
--- /06_.c
f
(
)
{
foreach
(
.
--- /07.c
f
(
)
{
foreach
(
int
--- /07_.c
f
(
)
{
foreach
(
int
.
--- /08.c
f
(
)
{
foreach
(
int
a
--- /08_.c
f
(
)
{
foreach
(
int
a
.
--- /09.c
f
(
)
{
foreach
(
int
a
,
--- /09_.c
f
(
)
{
foreach
(
int
a
,
.
--- /10.c
f
(
)
{
foreach
(
int
a
,
string
--- /10_.c
f
(
)
{
foreach
(
int
a
,
string
.
--- /11.c
f
(
)
{
foreach
(
int
a
,
string
*
--- /11_.c
f
(
)
{
foreach
(
int
a
,
string
*
.
--- /12.c
f
(
)
{
foreach
(
int
a
,
string
*
*
--- /12_.c
f
(
)
{
foreach
(
int
a
,
string
*
*
.
--- /13.c
f
(
)
{
foreach
(
int
a
,
string
*
*
b
--- /13_.c
f
(
)
{
foreach
(
int
a
,
string
*
*
b
.
--- /14.c
f
(
)
{
foreach
(
int
a
,
string
*
*
b
:
--- /14_.c
f
(
)
{
foreach
(
int
a
,
string
*
*
b
:
.
--- /15.c
f
(
)
{
foreach
(
int
a
,
string
*
*
b
:
c
--- /15_.c
f
(
)
{
foreach
(
int
a
,
string
*
*
b
:
c
.
--- /16.c
f
(
)
{
foreach
(
int
a
,
string
*
*
b
:
c
)
--- /16_.c
f
(
)
{
foreach
(
int
a
,
string
*
*
b
:
c
)
.
--- /17.c
f
(
)
{
foreach
(
int
a
,
string
*
*
b
:
c
)
break
--- /17_.c
f
(
)
{
foreach
(
int
a
,
string
*
*
b
:
c
)
break
.
--- /18.c
f
(
)
{
foreach
(
int
a
,
string
*
*
b
:
c
)
break
;
--- /18_.c
f
(
)
{
foreach
(
int
a
,
string
*
*
b
:
c
)
break
;
.
--- /19_.c
f
(
)
{
foreach
(
int
a
,
string
*
*
b
:
c
)
break
;
}
.
--- written
/01.c line 1: unexpected token
/01_.c line 2: unexpected token
/02.c line 2: unexpected token
/02_.c line 3: unexpected token
/03.c line 3: unexpected token
/03_.c line 4: unexpected token
/04.c line 4: unexpected token
/04_.c line 5: unexpected token
/05.c line 5: unexpected token
/05_.c line 6: unexpected token
/06.c line 6: unexpected token
/06_.c line 7: unexpected token
/07.c line 7: unexpected token
/07_.c line 8: unexpected token
/08.c line 8: unexpected token
/08_.c line 9: unexpected token
/09.c line 9: unexpected token
/09_.c line 10: unexpected token
/10.c line 10: unexpected token
/10_.c line 11: unexpected token
/11.c line 11: unexpected token
/11_.c line 12: unexpected token
/12.c line 12: unexpected token
/12_.c line 13: unexpected token
/13.c line 13: unexpected token
/13_.c line 14: unexpected token
/14.c line 14: unexpected token
/14_.c line 15: unexpected token
/15.c line 15: unexpected token
/15_.c line 16: unexpected token
/16.c line 16: unexpected token
/16_.c line 17: unexpected token
/17.c line 17: unexpected token
/17_.c line 18: unexpected token
/18.c line 18: unexpected token
/18_.c line 19: unexpected token
/19_.c line 20: unexpected token
37 files, 37 faults

=== foreach_of_two_over_a_sequence
# f ( ) { foreach ( a , mixed b in c , d ) continue ; }
--- /01.c
f
--- /01_.c
f
.
--- /02.c
f
(
--- /02_.c
f
(
.
--- /03.c
f
(
)
--- /03_.c
f
(
)
.
--- /04.c
f
(
)
{
--- /04_.c
f
(
)
{
.
--- /05.c
f
(
)
{
foreach
--- /05_.c
f
(
)
{
foreach
.
--- /06.c
f
(
)
{
foreach
(
--- /06_.c
f
(
)
{
foreach
(
.
--- /07.c
f
(
)
{
foreach
(
a
--- /07_.c
f
(
)
{
foreach
(
a
.
--- /08.c
f
(
)
{
foreach
(
a
,
--- /08_.c
f
(
)
{
foreach
(
a
,
.
--- /09.c
f
(
)
{
foreach
(
a
,
mixed
--- /09_.c
f
(
)
{
foreach
(
a
,
mixed
.
--- /10.c
f
(
)
{
foreach
(
a
,
mixed
b
--- /10_.c
f
(
)
{
foreach
(
a
,
mixed
b
.
--- /11.c
f
(
)
{
foreach
(
a
,
mixed
b
in
--- /11_.c
f
(
)
{
foreach
(
a
,
mixed
b
in
.
--- /12.c
f
(
)
{
foreach
(
a
,
mixed
b
in
c
--- /12_.c
f
(
)
{
foreach
(
a
,
mixed
b
in
c
.
--- /13.c
f
(
)
{
foreach
(
a
,
mixed
b
in
c
,
--- /13_.c
f
(
)
{
foreach
(
a
,
mixed
b
in
c
,
.
--- /14.c
f
(
)
{
foreach
(
a
,
mixed
b
in
c
,
d
--- /14_.c
f
(
)
{
foreach
(
a
,
mixed
b
in
c
,
d
.
--- /15.c
f
(
)
{
foreach
(
a
,
mixed
b
in
c
,
d
)
--- /15_.c
f
(
)
{
foreach
(
a
,
mixed
b
in
c
,
d
)
.
--- /16.c
f
(
)
{
foreach
(
a
,
mixed
b
in
c
,
d
)
continue
--- /16_.c
f
(
)
{
foreach
(
a
,
mixed
b
in
c
,
d
)
continue
.
--- /17.c
f
(
)
{
foreach
(
a
,
mixed
b
in
c
,
d
)
continue
;
--- /17_.c
f
(
)
{
foreach
(
a
,
mixed
b
in
c
,
d
)
continue
;
.
--- /18_.c
f
(
)
{
foreach
(
a
,
mixed
b
in
c
,
d
)
continue
;
}
.
--- written
/01.c line 1: unexpected token
/01_.c line 2: unexpected token
/02.c line 2: unexpected token
/02_.c line 3: unexpected token
/03.c line 3: unexpected token
/03_.c line 4: unexpected token
/04.c line 4: unexpected token
/04_.c line 5: unexpected token
/05.c line 5: unexpected token
/05_.c line 6: unexpected token
/06.c line 6: unexpected token
/06_.c line 7: unexpected token
/07.c line 7: unexpected token
/07_.c line 8: unexpected token
/08.c line 8: unexpected token
/08_.c line 9: unexpected token
/09.c line 9: unexpected token
/09_.c line 10: unexpected token
/10.c line 10: unexpected token
/10_.c line 11: unexpected token
/11.c line 11: unexpected token
/11_.c line 12: unexpected token
/12.c line 12: unexpected token
/12_.c line 13: unexpected token
/13.c line 13: unexpected token
/13_.c line 14: unexpected token
/14.c line 14: unexpected token
/14_.c line 15: unexpected token
/15.c line 15: unexpected token
/15_.c line 16: unexpected token
/16.c line 16: unexpected token
/16_.c line 17: unexpected token
/17.c line 17: unexpected token
/17_.c line 18: unexpected token
/18_.c line 19: unexpected token
35 files, 35 faults
