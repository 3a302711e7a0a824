# Sources that are cut behind each of their tokens, which stand on a line each. Each front that is no whole unit has its
# fault in the line of its last token: more is wanted there. And each front goes on to a unit: with a token behind it
# that nothing has, the fault is that of this token, in its own line.
# These are switches, returns and statements that are expressions.
words: check

=== switch_of_nothing
# f ( ) { switch ( a ) { } }
--- /01.c
f
--- /01_.c
f
.
--- /02.c
f
(
--- /02_.c
f
(
.
--- /03.c
f
(
)
--- /03_.c
f
(
)
.
--- /04.c
f
(
)
{
--- /04_.c
f
(
)
{
.
--- /05.c
f
(
)
{
switch
--- /05_.c
f
(
)
{
switch
.
--- /06.c
f
(
)
{
switch
(
--- /06_.c
f
(
)
{
switch
(
.
--- /07.c
f
(
)
{
switch
(
a
--- /07_.c
f
(
)
{
switch
(
a
.
--- /08.c
f
(
)
{
switch
(
a
)
--- /08_.c
f
(
)
{
switch
(
a
)
.
--- /09.c
f
(
)
{
switch
(
a
)
{
--- /09_.c
f
(
)
{
switch
(
a
)
{
.
--- /10.c
f
(
)
{
switch
(
a
)
{
}
--- /10_.c
f
(
)
{
switch
(
a
)
{
}
.
--- /11_.c
f
(
)
{
switch
(
a
)
{
}
}
.
--- written
/01.c line 1: unexpected token
/01_.c line 2: unexpected token
/02.c line 2: unexpected token
/02_.c line 3: unexpected token
/03.c line 3: unexpected token
/03_.c line 4: unexpected token
/04.c line 4: unexpected token
/04_.c line 5: unexpected token
/05.c line 5: unexpected token
/05_.c line 6: unexpected token
/06.c line 6: unexpected token
/06_.c line 7: unexpected token
/07.c line 7: unexpected token
/07_.c line 8: unexpected token
/08.c line 8: unexpected token
/08_.c line 9: unexpected token
/09.c line 9: unexpected token
/09_.c line 10: unexpected token
/10.c line 10: unexpected token
/10_.c line 11: unexpected token
/11_.c line 12: unexpected token
21 files, 21 faults

=== switch
# f ( ) { switch ( a ) { case 1 : case - 2 : case "t" : default : } }
--- /01.c
f
--- /01_.c
f
.
--- /02.c
f
(
--- /02_.c
f
(
.
--- /03.c
f
(
)
--- /03_.c
f
(
)
.
--- /04.c
f
(
)
{
--- /04_.c
f
(
)
{
.
--- /05.c
f
(
)
{
switch
--- /05_.c
f
(
)
{
switch
.
--- /06.c
f
(
)
{
switch
(
--- /06_.c
f
(
)
{
switch
(
.
--- /07.c
f
(
)
{
switch
(
a
--- /07_.c
f
(
)
{
switch
(
a
.
--- /08.c
f
(
)
{
switch
(
a
)
--- /08_.c
f
(
)
{
switch
(
a
)
.
--- /09.c
f
(
)
{
switch
(
a
)
{
--- /09_.c
f
(
)
{
switch
(
a
)
{
.
--- /10.c
f
(
)
{
switch
(
a
)
{
case
--- /10_.c
f
(
)
{
switch
(
a
)
{
case
.
--- /11.c
f
(
)
{
switch
(
a
)
{
case
1
--- /11_.c
f
(
)
{
switch
(
a
)
{
case
1
.
--- /12.c
f
(
)
{
switch
(
a
)
{
case
1
:
--- /12_.c
f
(
)
{
switch
(
a
)
{
case
1
:
.
--- /13.c
f
(
)
{
switch
(
a
)
{
case
1
:
case
--- /13_.c
f
(
)
{
switch
(
a
)
{
case
1
:
case
.
--- /14.c
f
(
)
{
switch
(
a
)
{
case
1
:
case
-
--- /14_.c
f
(
)
{
switch
(
a
)
{
case
1
:
case
-
.
--- /15.c
f
(
)
{
switch
(
a
)
{
case
1
:
case
-
2
--- /15_.c
f
(
)
{
switch
(
a
)
{
case
1
:
case
-
2
.
--- /16.c
f
(
)
{
switch
(
a
)
{
case
1
:
case
-
2
:
--- /16_.c
f
(
)
{
switch
(
a
)
{
case
1
:
case
-
2
:
.
--- /17.c
f
(
)
{
switch
(
a
)
{
case
1
:
case
-
2
:
case
--- /17_.c
f
(
)
{
switch
(
a
)
{
case
1
:
case
-
2
:
case
.
--- /18.c
f
(
)
{
switch
(
a
)
{
case
1
:
case
-
2
:
case
"t"
--- /18_.c
f
(
)
{
switch
(
a
)
{
case
1
:
case
-
2
:
case
"t"
.
--- /19.c
f
(
)
{
switch
(
a
)
{
case
1
:
case
-
2
:
case
"t"
:
--- /19_.c
f
(
)
{
switch
(
a
)
{
case
1
:
case
-
2
:
case
"t"
:
.
--- /20.c
f
(
)
{
switch
(
a
)
{
case
1
:
case
-
2
:
case
"t"
:
default
--- /20_.c
f
(
)
{
switch
(
a
)
{
case
1
:
case
-
2
:
case
"t"
:
default
.
--- /21.c
f
(
)
{
switch
(
a
)
{
case
1
:
case
-
2
:
case
"t"
:
default
:
--- /21_.c
f
(
)
{
switch
(
a
)
{
case
1
:
case
-
2
:
case
"t"
:
default
:
.
--- /22.c
f
(
)
{
switch
(
a
)
{
case
1
:
case
-
2
:
case
"t"
:
default
:
}
--- /22_.c
f
(
)
{
switch
(
a
)
{
case
1
:
case
-
2
:
case
"t"
:
default
:
}
.
--- /23_.c
f
(
)
{
switch
(
a
)
{
case
1
:
case
-
2
:
case
"t"
:
default
:
}
}
.
--- written
/01.c line 1: unexpected token
/01_.c line 2: unexpected token
/02.c line 2: unexpected token
/02_.c line 3: unexpected token
/03.c line 3: unexpected token
/03_.c line 4: unexpected token
/04.c line 4: unexpected token
/04_.c line 5: unexpected token
/05.c line 5: unexpected token
/05_.c line 6: unexpected token
/06.c line 6: unexpected token
/06_.c line 7: unexpected token
/07.c line 7: unexpected token
/07_.c line 8: unexpected token
/08.c line 8: unexpected token
/08_.c line 9: unexpected token
/09.c line 9: unexpected token
/09_.c line 10: unexpected token
/10.c line 10: unexpected token
/10_.c line 11: unexpected token
/11.c line 11: unexpected token
/11_.c line 12: unexpected token
/12.c line 12: unexpected token
/12_.c line 13: unexpected token
/13.c line 13: unexpected token
/13_.c line 14: unexpected token
/14.c line 14: unexpected token
/14_.c line 15: unexpected token
/15.c line 15: unexpected token
/15_.c line 16: unexpected token
/16.c line 16: unexpected token
/16_.c line 17: unexpected token
/17.c line 17: unexpected token
/17_.c line 18: unexpected token
/18.c line 18: unexpected token
/18_.c line 19: unexpected token
/19.c line 19: unexpected token
/19_.c line 20: unexpected token
/20.c line 20: unexpected token
/20_.c line 21: unexpected token
/21.c line 21: unexpected token
/21_.c line 22: unexpected token
/22.c line 22: unexpected token
/22_.c line 23: unexpected token
/23_.c line 24: unexpected token
45 files, 45 faults

=== switch_with_ranges
# f ( ) { switch ( a ) { case 1 .. 2 : case - 4 .. - 3 : ; case - 1 .. 0 : break ; } }
--- /01.c
f
--- /01_.c
f
.
--- /02.c
f
(
--- /02_.c
f
(
.
--- /03.c
f
(
)
--- /03_.c
f
(
)
.
--- /04.c
f
(
)
{
--- /04_.c
f
(
)
{
.
--- /05.c
f
(
)
{
switch
--- /05_.c
f
(
)
{
switch
.
--- /06.c
f
(
)
{
switch
(
--- /06_.c
f
(
)
{
switch
(
.
--- /07.c
f
(
)
{
switch
(
a
--- /07_.c
f
(
)
{
switch
(
a
.
--- /08.c
f
(
)
{
switch
(
a
)
--- /08_.c
f
(
)
{
switch
(
a
)
.
--- /09.c
f
(
)
{
switch
(
a
)
{
--- /09_.c
f
(
)
{
switch
(
a
)
{
.
--- /10.c
f
(
)
{
switch
(
a
)
{
case
--- /10_.c
f
(
)
{
switch
(
a
)
{
case
.
--- /11.c
f
(
)
{
switch
(
a
)
{
case
1
--- /11_.c
f
(
)
{
switch
(
a
)
{
case
1
.
--- /12.c
f
(
)
{
switch
(
a
)
{
case
1
..
--- /12_.c
f
(
)
{
switch
(
a
)
{
case
1
..
.
--- /13.c
f
(
)
{
switch
(
a
)
{
case
1
..
2
--- /13_.c
f
(
)
{
switch
(
a
)
{
case
1
..
2
.
--- /14.c
f
(
)
{
switch
(
a
)
{
case
1
..
2
:
--- /14_.c
f
(
)
{
switch
(
a
)
{
case
1
..
2
:
.
--- /15.c
f
(
)
{
switch
(
a
)
{
case
1
..
2
:
case
--- /15_.c
f
(
)
{
switch
(
a
)
{
case
1
..
2
:
case
.
--- /16.c
f
(
)
{
switch
(
a
)
{
case
1
..
2
:
case
-
--- /16_.c
f
(
)
{
switch
(
a
)
{
case
1
..
2
:
case
-
.
--- /17.c
f
(
)
{
switch
(
a
)
{
case
1
..
2
:
case
-
4
--- /17_.c
f
(
)
{
switch
(
a
)
{
case
1
..
2
:
case
-
4
.
--- /18.c
f
(
)
{
switch
(
a
)
{
case
1
..
2
:
case
-
4
..
--- /18_.c
f
(
)
{
switch
(
a
)
{
case
1
..
2
:
case
-
4
..
.
--- /19.c
f
(
)
{
switch
(
a
)
{
case
1
..
2
:
case
-
4
..
-
--- /19_.c
f
(
)
{
switch
(
a
)
{
case
1
..
2
:
case
-
4
..
-
.
--- /20.c
f
(
)
{
switch
(
a
)
{
case
1
..
2
:
case
-
4
..
-
3
--- /20_.c
f
(
)
{
switch
(
a
)
{
case
1
..
2
:
case
-
4
..
-
3
.
--- /21.c
f
(
)
{
switch
(
a
)
{
case
1
..
2
:
case
-
4
..
-
3
:
--- /21_.c
f
(
)
{
switch
(
a
)
{
case
1
..
2
:
case
-
4
..
-
3
:
.
--- /22.c
f
(
)
{
switch
(
a
)
{
case
1
..
2
:
case
-
4
..
-
3
:
;
--- /22_.c
f
(
)
{
switch
(
a
)
{
case
1
..
2
:
case
-
4
..
-
3
:
;
.
--- /23.c
f
(
)
{
switch
(
a
)
{
case
1
..
2
:
case
-
4
..
-
3
:
;
case
--- /23_.c
f
(
)
{
switch
(
a
)
{
case
1
..
2
:
case
-
4
..
-
3
:
;
case
.
--- /24.c
f
(
)
{
switch
(
a
)
{
case
1
..
2
:
case
-
4
..
-
3
:
;
case
-
--- /24_.c
f
(
)
{
switch
(
a
)
{
case
1
..
2
:
case
-
4
..
-
3
:
;
case
-
.
--- /25.c
f
(
)
{
switch
(
a
)
{
case
1
..
2
:
case
-
4
..
-
3
:
;
case
-
1
--- /25_.c
f
(
)
{
switch
(
a
)
{
case
1
..
2
:
case
-
4
..
-
3
:
;
case
-
1
.
--- /26.c
f
(
)
{
switch
(
a
)
{
case
1
..
2
:
case
-
4
..
-
3
:
;
case
-
1
..
--- /26_.c
f
(
)
{
switch
(
a
)
{
case
1
..
2
:
case
-
4
..
-
3
:
;
case
-
1
..
.
--- /27.c
f
(
)
{
switch
(
a
)
{
case
1
..
2
:
case
-
4
..
-
3
:
;
case
-
1
..
0
--- /27_.c
f
(
)
{
switch
(
a
)
{
case
1
..
2
:
case
-
4
..
-
3
:
;
case
-
1
..
0
.
--- /28.c
f
(
)
{
switch
(
a
)
{
case
1
..
2
:
case
-
4
..
-
3
:
;
case
-
1
..
0
:
--- /28_.c
f
(
)
{
switch
(
a
)
{
case
1
..
2
:
case
-
4
..
-
3
:
;
case
-
1
..
0
:
.
--- /29.c
f
(
)
{
switch
(
a
)
{
case
1
..
2
:
case
-
4
..
-
3
:
;
case
-
1
..
0
:
break
--- /29_.c
f
(
)
{
switch
(
a
)
{
case
1
..
2
:
case
-
4
..
-
3
:
;
case
-
1
..
0
:
break
.
--- /30.c
f
(
)
{
switch
(
a
)
{
case
1
..
2
:
case
-
4
..
-
3
:
;
case
-
1
..
0
:
break
;
--- /30_.c
f
(
)
{
switch
(
a
)
{
case
1
..
2
:
case
-
4
..
-
3
:
;
case
-
1
..
0
:
break
;
.
--- /31.c
f
(
)
{
switch
(
a
)
{
case
1
..
2
:
case
-
4
..
-
3
:
;
case
-
1
..
0
:
break
;
}
--- /31_.c
f
(
)
{
switch
(
a
)
{
case
1
..
2
:
case
-
4
..
-
3
:
;
case
-
1
..
0
:
break
;
}
.
--- /32_.c
f
(
)
{
switch
(
a
)
{
case
1
..
2
:
case
-
4
..
-
3
:
;
case
-
1
..
0
:
break
;
}
}
.
--- written
/01.c line 1: unexpected token
/01_.c line 2: unexpected token
/02.c line 2: unexpected token
/02_.c line 3: unexpected token
/03.c line 3: unexpected token
/03_.c line 4: unexpected token
/04.c line 4: unexpected token
/04_.c line 5: unexpected token
/05.c line 5: unexpected token
/05_.c line 6: unexpected token
/06.c line 6: unexpected token
/06_.c line 7: unexpected token
/07.c line 7: unexpected token
/07_.c line 8: unexpected token
/08.c line 8: unexpected token
/08_.c line 9: unexpected token
/09.c line 9: unexpected token
/09_.c line 10: unexpected token
/10.c line 10: unexpected token
/10_.c line 11: unexpected token
/11.c line 11: unexpected token
/11_.c line 12: unexpected token
/12.c line 12: unexpected token
/12_.c line 13: unexpected token
/13.c line 13: unexpected token
/13_.c line 14: unexpected token
/14.c line 14: unexpected token
/14_.c line 15: unexpected token
/15.c line 15: unexpected token
/15_.c line 16: unexpected token
/16.c line 16: unexpected token
/16_.c line 17: unexpected token
/17.c line 17: unexpected token
/17_.c line 18: unexpected token
/18.c line 18: unexpected token
/18_.c line 19: unexpected token
/19.c line 19: unexpected token
/19_.c line 20: unexpected token
/20.c line 20: unexpected token
/20_.c line 21: unexpected token
/21.c line 21: unexpected token
/21_.c line 22: unexpected token
/22.c line 22: unexpected token
/22_.c line 23: unexpected token
/23.c line 23: unexpected token
/23_.c line 24: unexpected token
/24.c line 24: unexpected token
/24_.c line 25: unexpected token
/25.c line 25: unexpected token
/25_.c line 26: unexpected token
/26.c line 26: unexpected token
/26_.c line 27: unexpected token
/27.c line 27: unexpected token
/27_.c line 28: unexpected token
/28.c line 28: unexpected token
/28_.c line 29: unexpected token
/29.c line 29: unexpected token
/29_.c line 30: unexpected token
/30.c line 30: unexpected token
/30_.c line 31: unexpected token
/31.c line 31: unexpected token
/31_.c line 32: unexpected token
/32_.c line 33: unexpected token
63 files, 63 faults

=== switch_with_statements
# f ( ) { switch ( a ) { a ; default : if ( b ) ; case 1 : ; } }
--- /01.c
f
--- /01_.c
f
.
--- /02.c
f
(
--- /02_.c
f
(
.
--- /03.c
f
(
)
--- /03_.c
f
(
)
.
--- /04.c
f
(
)
{
--- /04_.c
f
(
)
{
.
--- /05.c
f
(
)
{
switch
--- /05_.c
f
(
)
{
switch
.
--- /06.c
f
(
)
{
switch
(
--- /06_.c
f
(
)
{
switch
(
.
--- /07.c
f
(
)
{
switch
(
a
--- /07_.c
f
(
)
{
switch
(
a
.
--- /08.c
f
(
)
{
switch
(
a
)
--- /08_.c
f
(
)
{
switch
(
a
)
.
--- /09.c
f
(
)
{
switch
(
a
)
{
--- /09_.c
f
(
)
{
switch
(
a
)
{
.
--- /10.c
f
(
)
{
switch
(
a
)
{
a
--- /10_.c
f
(
)
{
switch
(
a
)
{
a
.
--- /11.c
f
(
)
{
switch
(
a
)
{
a
;
--- /11_.c
f
(
)
{
switch
(
a
)
{
a
;
.
--- /12.c
f
(
)
{
switch
(
a
)
{
a
;
default
--- /12_.c
f
(
)
{
switch
(
a
)
{
a
;
default
.
--- /13.c
f
(
)
{
switch
(
a
)
{
a
;
default
:
--- /13_.c
f
(
)
{
switch
(
a
)
{
a
;
default
:
.
--- /14.c
f
(
)
{
switch
(
a
)
{
a
;
default
:
if
--- /14_.c
f
(
)
{
switch
(
a
)
{
a
;
default
:
if
.
--- /15.c
f
(
)
{
switch
(
a
)
{
a
;
default
:
if
(
--- /15_.c
f
(
)
{
switch
(
a
)
{
a
;
default
:
if
(
.
--- /16.c
f
(
)
{
switch
(
a
)
{
a
;
default
:
if
(
b
--- /16_.c
f
(
)
{
switch
(
a
)
{
a
;
default
:
if
(
b
.
--- /17.c
f
(
)
{
switch
(
a
)
{
a
;
default
:
if
(
b
)
--- /17_.c
f
(
)
{
switch
(
a
)
{
a
;
default
:
if
(
b
)
.
--- /18.c
f
(
)
{
switch
(
a
)
{
a
;
default
:
if
(
b
)
;
--- /18_.c
f
(
)
{
switch
(
a
)
{
a
;
default
:
if
(
b
)
;
.
--- /19.c
f
(
)
{
switch
(
a
)
{
a
;
default
:
if
(
b
)
;
case
--- /19_.c
f
(
)
{
switch
(
a
)
{
a
;
default
:
if
(
b
)
;
case
.
--- /20.c
f
(
)
{
switch
(
a
)
{
a
;
default
:
if
(
b
)
;
case
1
--- /20_.c
f
(
)
{
switch
(
a
)
{
a
;
default
:
if
(
b
)
;
case
1
.
--- /21.c
f
(
)
{
switch
(
a
)
{
a
;
default
:
if
(
b
)
;
case
1
:
--- /21_.c
f
(
)
{
switch
(
a
)
{
a
;
default
:
if
(
b
)
;
case
1
:
.
--- /22.c
f
(
)
{
switch
(
a
)
{
a
;
default
:
if
(
b
)
;
case
1
:
;
--- /22_.c
f
(
)
{
switch
(
a
)
{
a
;
default
:
if
(
b
)
;
case
1
:
;
.
--- /23.c
f
(
)
{
switch
(
a
)
{
a
;
default
:
if
(
b
)
;
case
1
:
;
}
--- /23_.c
f
(
)
{
switch
(
a
)
{
a
;
default
:
if
(
b
)
;
case
1
:
;
}
.
--- /24_.c
f
(
)
{
switch
(
a
)
{
a
;
default
:
if
(
b
)
;
case
1
:
;
}
}
.
--- written
/01.c line 1: unexpected token
/01_.c line 2: unexpected token
/02.c line 2: unexpected token
/02_.c line 3: unexpected token
/03.c line 3: unexpected token
/03_.c line 4: unexpected token
/04.c line 4: unexpected token
/04_.c line 5: unexpected token
/05.c line 5: unexpected token
/05_.c line 6: unexpected token
/06.c line 6: unexpected token
/06_.c line 7: unexpected token
/07.c line 7: unexpected token
/07_.c line 8: unexpected token
/08.c line 8: unexpected token
/08_.c line 9: unexpected token
/09.c line 9: unexpected token
/09_.c line 10: unexpected token
/10.c line 10: unexpected token
/10_.c line 11: unexpected token
/11.c line 11: unexpected token
/11_.c line 12: unexpected token
/12.c line 12: unexpected token
/12_.c line 13: unexpected token
/13.c line 13: unexpected token
/13_.c line 14: unexpected token
/14.c line 14: unexpected token
/14_.c line 15: unexpected token
/15.c line 15: unexpected token
/15_.c line 16: unexpected token
/16.c line 16: unexpected token
/16_.c line 17: unexpected token
/17.c line 17: unexpected token
/17_.c line 18: unexpected token
/18.c line 18: unexpected token
/18_.c line 19: unexpected token
/19.c line 19: unexpected token
/19_.c line 20: unexpected token
/20.c line 20: unexpected token
/20_.c line 21: unexpected token
/21.c line 21: unexpected token
/21_.c line 22: unexpected token
/22.c line 22: unexpected token
/22_.c line 23: unexpected token
/23.c line 23: unexpected token
/23_.c line 24: unexpected token
/24_.c line 25: unexpected token
47 files, 47 faults

=== switch_in_a_switch
# f ( ) { switch ( a ) { switch ( b ) { case 1 : break ; } default : { break ; } } }
--- /01.c
f
--- /01_.c
f
.
--- /02.c
f
(
--- /02_.c
f
(
.
--- /03.c
f
(
)
--- /03_.c
f
(
)
.
--- /04.c
f
(
)
{
--- /04_.c
f
(
)
{
.
--- /05.c
f
(
)
{
switch
--- /05_.c
f
(
)
{
switch
.
--- /06.c
f
(
)
{
switch
(
--- /06_.c
f
(
)
{
switch
(
.
--- /07.c
f
(
)
{
switch
(
a
--- /07_.c
f
(
)
{
switch
(
a
.
--- /08.c
f
(
)
{
switch
(
a
)
--- /08_.c
f
(
)
{
switch
(
a
)
.
--- /09.c
f
(
)
{
switch
(
a
)
{
--- /09_.c
f
(
)
{
switch
(
a
)
{
.
--- /10.c
f
(
)
{
switch
(
a
)
{
switch
--- /10_.c
f
(
)
{
switch
(
a
)
{
switch
.
--- /11.c
f
(
)
{
switch
(
a
)
{
switch
(
--- /11_.c
f
(
)
{
switch
(
a
)
{
switch
(
.
--- /12.c
f
(
)
{
switch
(
a
)
{
switch
(
b
--- /12_.c
f
(
)
{
switch
(
a
)
{
switch
(
b
.
--- /13.c
f
(
)
{
switch
(
a
)
{
switch
(
b
)
--- /13_.c
f
(
)
{
switch
(
a
)
{
switch
(
b
)
.
--- /14.c
f
(
)
{
switch
(
a
)
{
switch
(
b
)
{
--- /14_.c
f
(
)
{
switch
(
a
)
{
switch
(
b
)
{
.
--- /15.c
f
(
)
{
switch
(
a
)
{
switch
(
b
)
{
case
--- /15_.c
f
(
)
{
switch
(
a
)
{
switch
(
b
)
{
case
.
--- /16.c
f
(
)
{
switch
(
a
)
{
switch
(
b
)
{
case
1
--- /16_.c
f
(
)
{
switch
(
a
)
{
switch
(
b
)
{
case
1
.
--- /17.c
f
(
)
{
switch
(
a
)
{
switch
(
b
)
{
case
1
:
--- /17_.c
f
(
)
{
switch
(
a
)
{
switch
(
b
)
{
case
1
:
.
--- /18.c
f
(
)
{
switch
(
a
)
{
switch
(
b
)
{
case
1
:
break
--- /18_.c
f
(
)
{
switch
(
a
)
{
switch
(
b
)
{
case
1
:
break
.
--- /19.c
f
(
)
{
switch
(
a
)
{
switch
(
b
)
{
case
1
:
break
;
--- /19_.c
f
(
)
{
switch
(
a
)
{
switch
(
b
)
{
case
1
:
break
;
.
--- /20.c
f
(
)
{
switch
(
a
)
{
switch
(
b
)
{
case
1
:
break
;
}
--- /20_.c
f
(
)
{
switch
(
a
)
{
switch
(
b
)
{
case
1
:
break
;
}
.
--- /21.c
f
(
)
{
switch
(
a
)
{
switch
(
b
)
{
case
1
:
break
;
}
default
--- /21_.c
f
(
)
{
switch
(
a
)
{
switch
(
b
)
{
case
1
:
break
;
}
default
.
--- /22.c
f
(
)
{
switch
(
a
)
{
switch
(
b
)
{
case
1
:
break
;
}
default
:
--- /22_.c
f
(
)
{
switch
(
a
)
{
switch
(
b
)
{
case
1
:
break
;
}
default
:
.
--- /23.c
f
(
)
{
switch
(
a
)
{
switch
(
b
)
{
case
1
:
break
;
}
default
:
{
--- /23_.c
f
(
)
{
switch
(
a
)
{
switch
(
b
)
{
case
1
:
break
;
}
default
:
{
.
--- /24.c
f
(
)
{
switch
(
a
)
{
switch
(
b
)
{
case
1
:
break
;
}
default
:
{
break
--- /24_.c
f
(
)
{
switch
(
a
)
{
switch
(
b
)
{
case
1
:
break
;
}
default
:
{
break
.
--- /25.c
f
(
)
{
switch
(
a
)
{
switch
(
b
)
{
case
1
:
break
;
}
default
:
{
break
;
--- /25_.c
f
(
)
{
switch
(
a
)
{
switch
(
b
)
{
case
1
:
break
;
}
default
:
{
break
;
.
--- /26.c
f
(
)
{
switch
(
a
)
{
switch
(
b
)
{
case
1
:
break
;
}
default
:
{
break
;
}
--- /26_.c
f
(
)
{
switch
(
a
)
{
switch
(
b
)
{
case
1
:
break
;
}
default
:
{
break
;
}
.
--- /27.c
f
(
)
{
switch
(
a
)
{
switch
(
b
)
{
case
1
:
break
;
}
default
:
{
break
;
}
}
--- /27_.c
f
(
)
{
switch
(
a
)
{
switch
(
b
)
{
case
1
:
break
;
}
default
:
{
break
;
}
}
.
--- /28_.c
f
(
)
{
switch
(
a
)
{
switch
(
b
)
{
case
1
:
break
;
}
default
:
{
break
;
}
}
}
.
--- written
/01.c line 1: unexpected token
/01_.c line 2: unexpected token
/02.c line 2: unexpected token
/02_.c line 3: unexpected token
/03.c line 3: unexpected token
/03_.c line 4: unexpected token
/04.c line 4: unexpected token
/04_.c line 5: unexpected token
/05.c line 5: unexpected token
/05_.c line 6: unexpected token
/06.c line 6: unexpected token
/06_.c line 7: unexpected token
/07.c line 7: unexpected token
/07_.c line 8: unexpected token
/08.c line 8: unexpected token
/08_.c line 9: unexpected token
/09.c line 9: unexpected token
/09_.c line 10: unexpected token
/10.c line 10: unexpected token
/10_.c line 11: unexpected token
/11.c line 11: unexpected token
/11_.c line 12: unexpected token
/12.c line 12: unexpected token
/12_.c line 13: unexpected token
/13.c line 13: unexpected token
/13_.c line 14: unexpected token
/14.c line 14: unexpected token
/14_.c line 15: unexpected token
/15.c line 15: unexpected token
/15_.c line 16: unexpected token
/16.c line 16: unexpected token
/16_.c line 17: unexpected token
/17.c line 17: unexpected token
/17_.c line 18: unexpected token
/18.c line 18: unexpected token
/18_.c line 19: unexpected token
/19.c line 19: unexpected token
/19_.c line 20: unexpected token
/20.c line 20: unexpected token
/20_.c line 21: unexpected token
/21.c line 21: unexpected token
/21_.c line 22: unexpected token
/22.c line 22: unexpected token
/22_.c line 23: unexpected token
/23.c line 23: unexpected token
/23_.c line 24: unexpected token
/24.c line 24: unexpected token
/24_.c line 25: unexpected token
/25.c line 25: unexpected token
/25_.c line 26: unexpected token
/26.c line 26: unexpected token
/26_.c line 27: unexpected token
/27.c line 27: unexpected token
/27_.c line 28: unexpected token
/28_.c line 29: unexpected token
55 files, 55 faults

=== switch_in_a_while
# f ( ) { while ( a ) switch ( b ) { default : break ; continue ; } }
--- /01.c
f
--- /01_.c
f
.
--- /02.c
f
(
--- /02_.c
f
(
.
--- /03.c
f
(
)
--- /03_.c
f
(
)
.
--- /04.c
f
(
)
{
--- /04_.c
f
(
)
{
.
--- /05.c
f
(
)
{
while
--- /05_.c
f
(
)
{
while
.
--- /06.c
f
(
)
{
while
(
--- /06_.c
f
(
)
{
while
(
.
--- /07.c
f
(
)
{
while
(
a
--- /07_.c
f
(
)
{
while
(
a
.
--- /08.c
f
(
)
{
while
(
a
)
--- /08_.c
f
(
)
{
while
(
a
)
.
--- /09.c
f
(
)
{
while
(
a
)
switch
--- /09_.c
f
(
)
{
while
(
a
)
switch
.
--- /10.c
f
(
)
{
while
(
a
)
switch
(
--- /10_.c
f
(
)
{
while
(
a
)
switch
(
.
--- /11.c
f
(
)
{
while
(
a
)
switch
(
b
--- /11_.c
f
(
)
{
while
(
a
)
switch
(
b
.
--- /12.c
f
(
)
{
while
(
a
)
switch
(
b
)
--- /12_.c
f
(
)
{
while
(
a
)
switch
(
b
)
.
--- /13.c
f
(
)
{
while
(
a
)
switch
(
b
)
{
--- /13_.c
f
(
)
{
while
(
a
)
switch
(
b
)
{
.
--- /14.c
f
(
)
{
while
(
a
)
switch
(
b
)
{
default
--- /14_.c
f
(
)
{
while
(
a
)
switch
(
b
)
{
default
.
--- /15.c
f
(
)
{
while
(
a
)
switch
(
b
)
{
default
:
--- /15_.c
f
(
)
{
while
(
a
)
switch
(
b
)
{
default
:
.
--- /16.c
f
(
)
{
while
(
a
)
switch
(
b
)
{
default
:
break
--- /16_.c
f
(
)
{
while
(
a
)
switch
(
b
)
{
default
:
break
.
--- /17.c
f
(
)
{
while
(
a
)
switch
(
b
)
{
default
:
break
;
--- /17_.c
f
(
)
{
while
(
a
)
switch
(
b
)
{
default
:
break
;
.
--- /18.c
f
(
)
{
while
(
a
)
switch
(
b
)
{
default
:
break
;
continue
--- /18_.c
f
(
)
{
while
(
a
)
switch
(
b
)
{
default
:
break
;
continue
.
--- /19.c
f
(
)
{
while
(
a
)
switch
(
b
)
{
default
:
break
;
continue
;
--- /19_.c
f
(
)
{
while
(
a
)
switch
(
b
)
{
default
:
break
;
continue
;
.
--- /20.c
f
(
)
{
while
(
a
)
switch
(
b
)
{
default
:
break
;
continue
;
}
--- /20_.c
f
(
)
{
while
(
a
)
switch
(
b
)
{
default
:
break
;
continue
;
}
.
--- /21_.c
f
(
)
{
while
(
a
)
switch
(
b
)
{
default
:
break
;
continue
;
}
}
.
--- written
/01.c line 1: unexpected token
/01_.c line 2: unexpected token
/02.c line 2: unexpected token
/02_.c line 3: unexpected token
/03.c line 3: unexpected token
/03_.c line 4: unexpected token
/04.c line 4: unexpected token
/04_.c line 5: unexpected token
/05.c line 5: unexpected token
/05_.c line 6: unexpected token
/06.c line 6: unexpected token
/06_.c line 7: unexpected token
/07.c line 7: unexpected token
/07_.c line 8: unexpected token
/08.c line 8: unexpected token
/08_.c line 9: unexpected token
/09.c line 9: unexpected token
/09_.c line 10: unexpected token
/10.c line 10: unexpected token
/10_.c line 11: unexpected token
/11.c line 11: unexpected token
/11_.c line 12: unexpected token
/12.c line 12: unexpected token
/12_.c line 13: unexpected token
/13.c line 13: unexpected token
/13_.c line 14: unexpected token
/14.c line 14: unexpected token
/14_.c line 15: unexpected token
/15.c line 15: unexpected token
/15_.c line 16: unexpected token
/16.c line 16: unexpected token
/16_.c line 17: unexpected token
/17.c line 17: unexpected token
/17_.c line 18: unexpected token
/18.c line 18: unexpected token
/18_.c line 19: unexpected token
/19.c line 19: unexpected token
/19_.c line 20: unexpected token
/20.c line 20: unexpected token
/20_.c line 21: unexpected token
/21_.c line 22: unexpected token
41 files, 41 faults

=== return
# f ( ) { return ; }
--- /01.c
f
--- /01_.c
f
.
--- /02.c
f
(
--- /02_.c
f
(
.
--- /03.c
f
(
)
--- /03_.c
f
(
)
.
--- /04.c
f
(
)
{
--- /04_.c
f
(
)
{
.
--- /05.c
f
(
)
{
return
--- /05_.c
f
(
)
{
return
.
--- /06.c
f
(
)
{
return
;
--- /06_.c
f
(
)
{
return
;
.
--- /07_.c
f
(
)
{
return
;
}
.
--- written
/01.c line 1: unexpected token
/01_.c line 2: unexpected token
/02.c line 2: unexpected token
/02_.c line 3: unexpected token
/03.c line 3: unexpected token
/03_.c line 4: unexpected token
/04.c line 4: unexpected token
/04_.c line 5: unexpected token
/05.c line 5: unexpected token
/05_.c line 6: unexpected token
/06.c line 6: unexpected token
/06_.c line 7: unexpected token
/07_.c line 8: unexpected token
13 files, 13 faults

=== return_of_a_choice
# f ( ) { return a ? 1 : 2 ; }
--- /01.c
f
--- /01_.c
f
.
--- /02.c
f
(
--- /02_.c
f
(
.
--- /03.c
f
(
)
--- /03_.c
f
(
)
.
--- /04.c
f
(
)
{
--- /04_.c
f
(
)
{
.
--- /05.c
f
(
)
{
return
--- /05_.c
f
(
)
{
return
.
--- /06.c
f
(
)
{
return
a
--- /06_.c
f
(
)
{
return
a
.
--- /07.c
f
(
)
{
return
a
?
--- /07_.c
f
(
)
{
return
a
?
.
--- /08.c
f
(
)
{
return
a
?
1
--- /08_.c
f
(
)
{
return
a
?
1
.
--- /09.c
f
(
)
{
return
a
?
1
:
--- /09_.c
f
(
)
{
return
a
?
1
:
.
--- /10.c
f
(
)
{
return
a
?
1
:
2
--- /10_.c
f
(
)
{
return
a
?
1
:
2
.
--- /11.c
f
(
)
{
return
a
?
1
:
2
;
--- /11_.c
f
(
)
{
return
a
?
1
:
2
;
.
--- /12_.c
f
(
)
{
return
a
?
1
:
2
;
}
.
--- written
/01.c line 1: unexpected token
/01_.c line 2: unexpected token
/02.c line 2: unexpected token
/02_.c line 3: unexpected token
/03.c line 3: unexpected token
/03_.c line 4: unexpected token
/04.c line 4: unexpected token
/04_.c line 5: unexpected token
/05.c line 5: unexpected token
/05_.c line 6: unexpected token
/06.c line 6: unexpected token
/06_.c line 7: unexpected token
/07.c line 7: unexpected token
/07_.c line 8: unexpected token
/08.c line 8: unexpected token
/08_.c line 9: unexpected token
/09.c line 9: unexpected token
/09_.c line 10: unexpected token
/10.c line 10: unexpected token
/10_.c line 11: unexpected token
/11.c line 11: unexpected token
/11_.c line 12: unexpected token
/12_.c line 13: unexpected token
23 files, 23 faults

=== returns_in_an_if
# f ( ) { if ( a ) return ; else return 1 ; return 2 ; }
--- /01.c
f
--- /01_.c
f
.
--- /02.c
f
(
--- /02_.c
f
(
.
--- /03.c
f
(
)
--- /03_.c
f
(
)
.
--- /04.c
f
(
)
{
--- /04_.c
f
(
)
{
.
--- /05.c
f
(
)
{
if
--- /05_.c
f
(
)
{
if
.
--- /06.c
f
(
)
{
if
(
--- /06_.c
f
(
)
{
if
(
.
--- /07.c
f
(
)
{
if
(
a
--- /07_.c
f
(
)
{
if
(
a
.
--- /08.c
f
(
)
{
if
(
a
)
--- /08_.c
f
(
)
{
if
(
a
)
.
--- /09.c
f
(
)
{
if
(
a
)
return
--- /09_.c
f
(
)
{
if
(
a
)
return
.
--- /10.c
f
(
)
{
if
(
a
)
return
;
--- /10_.c
f
(
)
{
if
(
a
)
return
;
.
--- /11.c
f
(
)
{
if
(
a
)
return
;
else
--- /11_.c
f
(
)
{
if
(
a
)
return
;
else
.
--- /12.c
f
(
)
{
if
(
a
)
return
;
else
return
--- /12_.c
f
(
)
{
if
(
a
)
return
;
else
return
.
--- /13.c
f
(
)
{
if
(
a
)
return
;
else
return
1
--- /13_.c
f
(
)
{
if
(
a
)
return
;
else
return
1
.
--- /14.c
f
(
)
{
if
(
a
)
return
;
else
return
1
;
--- /14_.c
f
(
)
{
if
(
a
)
return
;
else
return
1
;
.
--- /15.c
f
(
)
{
if
(
a
)
return
;
else
return
1
;
return
--- /15_.c
f
(
)
{
if
(
a
)
return
;
else
return
1
;
return
.
--- /16.c
f
(
)
{
if
(
a
)
return
;
else
return
1
;
return
2
--- /16_.c
f
(
)
{
if
(
a
)
return
;
else
return
1
;
return
2
.
--- /17.c
f
(
)
{
if
(
a
)
return
;
else
return
1
;
return
2
;
--- /17_.c
f
(
)
{
if
(
a
)
return
;
else
return
1
;
return
2
;
.
--- /18_.c
f
(
)
{
if
(
a
)
return
;
else
return
1
;
return
2
;
}
.
--- written
/01.c line 1: unexpected token
/01_.c line 2: unexpected token
/02.c line 2: unexpected token
/02_.c line 3: unexpected token
/03.c line 3: unexpected token
/03_.c line 4: unexpected token
/04.c line 4: unexpected token
/04_.c line 5: unexpected token
/05.c line 5: unexpected token
/05_.c line 6: unexpected token
/06.c line 6: unexpected token
/06_.c line 7: unexpected token
/07.c line 7: unexpected token
/07_.c line 8: unexpected token
/08.c line 8: unexpected token
/08_.c line 9: unexpected token
/09.c line 9: unexpected token
/09_.c line 10: unexpected token
/10.c line 10: unexpected token
/10_.c line 11: unexpected token
/11.c line 11: unexpected token
/11_.c line 12: unexpected token
/12.c line 12: unexpected token
/12_.c line 13: unexpected token
/13.c line 13: unexpected token
/13_.c line 14: unexpected token
/14.c line 14: unexpected token
/14_.c line 15: unexpected token
/15.c line 15: unexpected token
/15_.c line 16: unexpected token
/16.c line 16: unexpected token
/16_.c line 17: unexpected token
/17.c line 17: unexpected token
/17_.c line 18: unexpected token
/18_.c line 19: unexpected token
35 files, 35 faults

=== statements_that_begin_with_anything
# f ( ) { catch ( a ) ; ( { 1 , } ) ; "t" ; - 1 ; sscanf ( a , b , c ) ; }
--- /01.c
f
--- /01_.c
f
.
--- /02.c
f
(
--- /02_.c
f
(
.
--- /03.c
f
(
)
--- /03_.c
f
(
)
.
--- /04.c
f
(
)
{
--- /04_.c
f
(
)
{
.
--- /05.c
f
(
)
{
catch
--- /05_.c
f
(
)
{
catch
.
--- /06.c
f
(
)
{
catch
(
--- /06_.c
f
(
)
{
catch
(
.
--- /07.c
f
(
)
{
catch
(
a
--- /07_.c
f
(
)
{
catch
(
a
.
--- /08.c
f
(
)
{
catch
(
a
)
--- /08_.c
f
(
)
{
catch
(
a
)
.
--- /09.c
f
(
)
{
catch
(
a
)
;
--- /09_.c
f
(
)
{
catch
(
a
)
;
.
--- /10.c
f
(
)
{
catch
(
a
)
;
(
--- /10_.c
f
(
)
{
catch
(
a
)
;
(
.
--- /11.c
f
(
)
{
catch
(
a
)
;
(
{
--- /11_.c
f
(
)
{
catch
(
a
)
;
(
{
.
--- /12.c
f
(
)
{
catch
(
a
)
;
(
{
1
--- /12_.c
f
(
)
{
catch
(
a
)
;
(
{
1
.
--- /13.c
f
(
)
{
catch
(
a
)
;
(
{
1
,
--- /13_.c
f
(
)
{
catch
(
a
)
;
(
{
1
,
.
--- /14.c
f
(
)
{
catch
(
a
)
;
(
{
1
,
}
--- /14_.c
f
(
)
{
catch
(
a
)
;
(
{
1
,
}
.
--- /15.c
f
(
)
{
catch
(
a
)
;
(
{
1
,
}
)
--- /15_.c
f
(
)
{
catch
(
a
)
;
(
{
1
,
}
)
.
--- /16.c
f
(
)
{
catch
(
a
)
;
(
{
1
,
}
)
;
--- /16_.c
f
(
)
{
catch
(
a
)
;
(
{
1
,
}
)
;
.
--- /17.c
f
(
)
{
catch
(
a
)
;
(
{
1
,
}
)
;
"t"
--- /17_.c
f
(
)
{
catch
(
a
)
;
(
{
1
,
}
)
;
"t"
.
--- /18.c
f
(
)
{
catch
(
a
)
;
(
{
1
,
}
)
;
"t"
;
--- /18_.c
f
(
)
{
catch
(
a
)
;
(
{
1
,
}
)
;
"t"
;
.
--- /19.c
f
(
)
{
catch
(
a
)
;
(
{
1
,
}
)
;
"t"
;
-
--- /19_.c
f
(
)
{
catch
(
a
)
;
(
{
1
,
}
)
;
"t"
;
-
.
--- /20.c
f
(
)
{
catch
(
a
)
;
(
{
1
,
}
)
;
"t"
;
-
1
--- /20_.c
f
(
)
{
catch
(
a
)
;
(
{
1
,
}
)
;
"t"
;
-
1
.
--- /21.c
f
(
)
{
catch
(
a
)
;
(
{
1
,
}
)
;
"t"
;
-
1
;
--- /21_.c
f
(
)
{
catch
(
a
)
;
(
{
1
,
}
)
;
"t"
;
-
1
;
.
--- /22.c
f
(
)
{
catch
(
a
)
;
(
{
1
,
}
)
;
"t"
;
-
1
;
sscanf
--- /22_.c
f
(
)
{
catch
(
a
)
;
(
{
1
,
}
)
;
"t"
;
-
1
;
sscanf
.
--- /23.c
f
(
)
{
catch
(
a
)
;
(
{
1
,
}
)
;
"t"
;
-
1
;
sscanf
(
--- /23_.c
f
(
)
{
catch
(
a
)
;
(
{
1
,
}
)
;
"t"
;
-
1
;
sscanf
(
.
--- /24.c
f
(
)
{
catch
(
a
)
;
(
{
1
,
}
)
;
"t"
;
-
1
;
sscanf
(
a
--- /24_.c
f
(
)
{
catch
(
a
)
;
(
{
1
,
}
)
;
"t"
;
-
1
;
sscanf
(
a
.
--- /25.c
f
(
)
{
catch
(
a
)
;
(
{
1
,
}
)
;
"t"
;
-
1
;
sscanf
(
a
,
--- /25_.c
f
(
)
{
catch
(
a
)
;
(
{
1
,
}
)
;
"t"
;
-
1
;
sscanf
(
a
,
.
--- /26.c
f
(
)
{
catch
(
a
)
;
(
{
1
,
}
)
;
"t"
;
-
1
;
sscanf
(
a
,
b
--- /26_.c
f
(
)
{
catch
(
a
)
;
(
{
1
,
}
)
;
"t"
;
-
1
;
sscanf
(
a
,
b
.
--- /27.c
f
(
)
{
catch
(
a
)
;
(
{
1
,
}
)
;
"t"
;
-
1
;
sscanf
(
a
,
b
,
--- /27_.c
f
(
)
{
catch
(
a
)
;
(
{
1
,
}
)
;
"t"
;
-
1
;
sscanf
(
a
,
b
,
.
--- /28.c
f
(
)
{
catch
(
a
)
;
(
{
1
,
}
)
;
"t"
;
-
1
;
sscanf
(
a
,
b
,
c
--- /28_.c
f
(
)
{
catch
(
a
)
;
(
{
1
,
}
)
;
"t"
;
-
1
;
sscanf
(
a
,
b
,
c
.
--- /29.c
f
(
)
{
catch
(
a
)
;
(
{
1
,
}
)
;
"t"
;
-
1
;
sscanf
(
a
,
b
,
c
)
--- /29_.c
f
(
)
{
catch
(
a
)
;
(
{
1
,
}
)
;
"t"
;
-
1
;
sscanf
(
a
,
b
,
c
)
.
--- /30.c
f
(
)
{
catch
(
a
)
;
(
{
1
,
}
)
;
"t"
;
-
1
;
sscanf
(
a
,
b
,
c
)
;
--- /30_.c
f
(
)
{
catch
(
a
)
;
(
{
1
,
}
)
;
"t"
;
-
1
;
sscanf
(
a
,
b
,
c
)
;
.
--- /31_.c
f
(
)
{
catch
(
a
)
;
(
{
1
,
}
)
;
"t"
;
-
1
;
sscanf
(
a
,
b
,
c
)
;
}
.
--- written
/01.c line 1: unexpected token
/01_.c line 2: unexpected token
/02.c line 2: unexpected token
/02_.c line 3: unexpected token
/03.c line 3: unexpected token
/03_.c line 4: unexpected token
/04.c line 4: unexpected token
/04_.c line 5: unexpected token
/05.c line 5: unexpected token
/05_.c line 6: unexpected token
/06.c line 6: unexpected token
/06_.c line 7: unexpected token
/07.c line 7: unexpected token
/07_.c line 8: unexpected token
/08.c line 8: unexpected token
/08_.c line 9: unexpected token
/09.c line 9: unexpected token
/09_.c line 10: unexpected token
/10.c line 10: unexpected token
/10_.c line 11: unexpected token
/11.c line 11: unexpected token
/11_.c line 12: unexpected token
/12.c line 12: unexpected token
/12_.c line 13: unexpected token
/13.c line 13: unexpected token
/13_.c line 14: unexpected token
/14.c line 14: unexpected token
/14_.c line 15: unexpected token
/15.c line 15: unexpected token
/15_.c line 16: unexpected token
/16.c line 16: unexpected token
/16_.c line 17: unexpected token
/17.c line 17: unexpected token
/17_.c line 18: unexpected token
/18.c line 18: unexpected token
/18_.c line 19: unexpected token
/19.c line 19: unexpected token
/19_.c line 20: unexpected token
/20.c line 20: unexpected token
/20_.c line 21: unexpected token
/21.c line 21: unexpected token
/21_.c line 22: unexpected token
/22.c line 22: unexpected token
/22_.c line 23: unexpected token
/23.c line 23: unexpected token
/23_.c line 24: unexpected token
/24.c line 24: unexpected token
/24_.c line 25: unexpected token
/25.c line 25: unexpected token
/25_.c line 26: unexpected token
/26.c line 26: unexpected token
/26_.c line 27: unexpected token
/27.c line 27: unexpected token
/27_.c line 28: unexpected token
/28.c line 28: unexpected token
/28_.c line 29: unexpected token
/29.c line 29: unexpected token
/29_.c line 30: unexpected token
/30.c line 30: unexpected token
/30_.c line 31: unexpected token
/31_.c line 32: unexpected token
61 files, 61 faults
