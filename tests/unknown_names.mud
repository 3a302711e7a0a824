# A name that means nothing, in each place where a name may stand: each of them is a fault, in its own line, and the
# names beside it are none.
words: check

=== in_statements
# In each place of each statement.
--- /t.c
int g, h;
void f1() {
x;
{ x; }
int a =
x;
int b, c =
x;
{ int d; }
d;
if (x) ;
if (1) x;
if (1) ; else x;
while (x) ;
while (1) x;
do ; while (x);
do x; while (1);
for (x; ; ) ;
for (; x; ) ;
for (; ; x) ;
for (; ; ) x;
for (int i; ; ) ; i;
foreach (x : g) ;
foreach (h, x : g) ;
foreach (h : x) ;
foreach (int i : i) ;
switch (x) { }
switch (1) { case 1: x; }
return x; }
void f2() {
while (k) int k; }
void f3() {
int l = l; }
--- written
/t.c line 3: unknown name
/t.c line 4: unknown name
/t.c line 6: unknown name
/t.c line 8: unknown name
/t.c line 10: unknown name
/t.c line 11: unknown name
/t.c line 12: unknown name
/t.c line 13: unknown name
/t.c line 14: unknown name
/t.c line 15: unknown name
/t.c line 16: unknown name
/t.c line 17: unknown name
/t.c line 18: unknown name
/t.c line 19: unknown name
/t.c line 20: unknown name
/t.c line 21: unknown name
/t.c line 22: unknown name
/t.c line 23: unknown name
/t.c line 24: unknown name
/t.c line 25: unknown name
/t.c line 26: unknown name
/t.c line 27: unknown name
/t.c line 28: unknown name
/t.c line 29: unknown name
/t.c line 31: unknown name
/t.c line 33: unknown name
1 files, 26 faults

=== in_statements_known
# The same statements with names that mean something have no fault.
--- /t.c
mixed g, h, x;
void f1() {
x; { x; } int a = x; int b, c = b; { int d; d; }
if (x) ; if (1) x; if (1) ; else x;
while (x) ; while (1) x; do ; while (x); do x; while (1); do int k; while (k);
for (x; ; ) ; for (; x; ) ; for (; ; x) ; for (; ; ) x; for (int i; i; i) i;
foreach (x : g) ; foreach (h, x : g) ; foreach (h : x) ; foreach (int i, h : g) i;
switch (x) { } switch (1) { default: case 1: x; } switch (1) { default: switch (2) { default: } }
return x; }
--- written
1 files, 0 faults

=== in_expressions
# In each place of each expression.
--- /p.c
void p(mixed x) { }
--- /t.c
inherit "/p"; mixed g; void f(mixed a, mixed b, mixed c) {
(x);
({ a, x });
([ x: 1 ]);
([ 1: x ]);
f(x, b, c);
strlen(x);
efun::strlen(x);
::p(x);
"p"::p(x);
x->go(b);
a->go(x);
catch(x);
x[b];
a[x];
a[<x];
x[1 .. b];
a[x ..];
a[.. x];
a[<1 .. <x];
!x;
(int) x;
x + b;
a + x;
a && x;
x || b;
x ? b : c;
a ? x : c;
a ? b : x;
x, b;
a, x;
x = b;
a = x;
x[b] = c;
a[x] = c;
x += b;
a += x;
a[x] += c;
x &&= b;
a &&= x;
a[x] ||= b;
x++;
--x;
++a[x];
sscanf(x, b, c);
sscanf(a, x, c);
sscanf(a, b, x);
sscanf(a, b, c, g[x]); }
--- written
/t.c line 2: unknown name
/t.c line 3: unknown name
/t.c line 4: unknown name
/t.c line 5: unknown name
/t.c line 6: unknown name
/t.c line 7: unknown name
/t.c line 8: unknown name
/t.c line 9: unknown name
/t.c line 10: unknown name
/t.c line 11: unknown name
/t.c line 12: unknown name
/t.c line 13: unknown name
/t.c line 14: unknown name
/t.c line 15: unknown name
/t.c line 16: unknown name
/t.c line 17: unknown name
/t.c line 18: unknown name
/t.c line 19: unknown name
/t.c line 20: unknown name
/t.c line 21: unknown name
/t.c line 22: unknown name
/t.c line 23: unknown name
/t.c line 24: unknown name
/t.c line 25: unknown name
/t.c line 26: unknown name
/t.c line 27: unknown name
/t.c line 28: unknown name
/t.c line 29: unknown name
/t.c line 30: unknown name
/t.c line 31: unknown name
/t.c line 32: unknown name
/t.c line 33: unknown name
/t.c line 34: unknown name
/t.c line 35: unknown name
/t.c line 36: unknown name
/t.c line 37: unknown name
/t.c line 38: unknown name
/t.c line 39: unknown name
/t.c line 40: unknown name
/t.c line 41: unknown name
/t.c line 42: unknown name
/t.c line 43: unknown name
/t.c line 44: unknown name
/t.c line 45: unknown name
/t.c line 46: unknown name
/t.c line 47: unknown name
/t.c line 48: unknown name
2 files, 47 faults

=== in_expressions_known
# The same expressions with names that mean something have no fault.
--- /p.c
void p(mixed x) { }
--- /t.c
inherit "/p"; mixed g; void f(mixed a, mixed b, mixed c) {
a; g; (g); ({ a, g }); ([ 1: a ]); f(a, b, c); strlen(a); efun::strlen(a); ::p(a); "p"::p(a); a->go(b); catch(a);
a[b]; a[<b]; a[1 .. b]; a[b ..]; a[.. b]; a[<1 .. <b]; !a; (int) a; a + b; a && b; a || b; a ? b : c; a, b;
a = b; a[b] = c; a += b; a[b] += c; a &&= b; a[b] ||= c; a++; --g; ++a[b]; sscanf(a, b, c); sscanf(a, b, c, g[a]); }
--- written
2 files, 0 faults

=== functions
# Names that mean no function: of the file, of the efuns, of a parent, and of a parent that is none.
--- /p.c
void p(mixed x) { }
private void o(mixed x) { }
--- /t.c
inherit "/p"; void f(mixed a) {
nobody(a);
efun::f(a);
::o(a);
::f(a);
"p"::f(a);
"no"::p(a);
o(a); }
--- written
/t.c line 2: unknown function
/t.c line 3: unknown function
/t.c line 4: unknown function
/t.c line 5: unknown function
/t.c line 6: unknown function
/t.c line 7: unknown function
/t.c line 8: unknown function
2 files, 7 faults
