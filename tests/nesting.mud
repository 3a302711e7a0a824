# How deep statements and expressions may lie: 200 levels. Each case has two files, in which the same is nested as often
# as it may be and once more, each time on a line of its own behind the first line. The fault stands at the first token
# up to which every unit that begins so is too deep.
words: check

=== if
# The block of the function has level 1, and so the last `if` level 199 and what it runs level 200.
--- /more.c
f(){
if(1)
if(1)
if(1)
if(1)
if(1)
if(1)
if(1)
if(1)
if(1)
if(1)
if(1)
if(1)
if(1)
if(1)
if(1)
if(1)
if(1)
if(1)
if(1)
if(1)
if(1)
if(1)
if(1)
if(1)
if(1)
if(1)
if(1)
if(1)
if(1)
if(1)
if(1)
if(1)
if(1)
if(1)
if(1)
if(1)
if(1)
if(1)
if(1)
if(1)
if(1)
if(1)
if(1)
if(1)
if(1)
if(1)
if(1)
if(1)
if(1)
if(1)
if(1)
if(1)
if(1)
if(1)
if(1)
if(1)
if(1)
if(1)
if(1)
if(1)
if(1)
if(1)
if(1)
if(1)
if(1)
if(1)
if(1)
if(1)
if(1)
if(1)
if(1)
if(1)
if(1)
if(1)
if(1)
if(1)
if(1)
if(1)
if(1)
if(1)
if(1)
if(1)
if(1)
if(1)
if(1)
if(1)
if(1)
if(1)
if(1)
if(1)
if(1)
if(1)
if(1)
if(1)
if(1)
if(1)
if(1)
if(1)
if(1)
if(1)
if(1)
if(1)
if(1)
if(1)
if(1)
if(1)
if(1)
if(1)
if(1)
if(1)
if(1)
if(1)
if(1)
if(1)
if(1)
if(1)
if(1)
if(1)
if(1)
if(1)
if(1)
if(1)
if(1)
if(1)
if(1)
if(1)
if(1)
if(1)
if(1)
if(1)
if(1)
if(1)
if(1)
if(1)
if(1)
if(1)
if(1)
if(1)
if(1)
if(1)
if(1)
if(1)
if(1)
if(1)
if(1)
if(1)
if(1)
if(1)
if(1)
if(1)
if(1)
if(1)
if(1)
if(1)
if(1)
if(1)
if(1)
if(1)
if(1)
if(1)
if(1)
if(1)
if(1)
if(1)
if(1)
if(1)
if(1)
if(1)
if(1)
if(1)
if(1)
if(1)
if(1)
if(1)
if(1)
if(1)
if(1)
if(1)
if(1)
if(1)
if(1)
if(1)
if(1)
if(1)
if(1)
if(1)
if(1)
if(1)
if(1)
if(1)
if(1)
if(1)
if(1)
if(1)
if(1)
if(1)
if(1)
if(1)
if(1)
;







































































































































































































}
--- /most.c
f(){
if(1)
if(1)
if(1)
if(1)
if(1)
if(1)
if(1)
if(1)
if(1)
if(1)
if(1)
if(1)
if(1)
if(1)
if(1)
if(1)
if(1)
if(1)
if(1)
if(1)
if(1)
if(1)
if(1)
if(1)
if(1)
if(1)
if(1)
if(1)
if(1)
if(1)
if(1)
if(1)
if(1)
if(1)
if(1)
if(1)
if(1)
if(1)
if(1)
if(1)
if(1)
if(1)
if(1)
if(1)
if(1)
if(1)
if(1)
if(1)
if(1)
if(1)
if(1)
if(1)
if(1)
if(1)
if(1)
if(1)
if(1)
if(1)
if(1)
if(1)
if(1)
if(1)
if(1)
if(1)
if(1)
if(1)
if(1)
if(1)
if(1)
if(1)
if(1)
if(1)
if(1)
if(1)
if(1)
if(1)
if(1)
if(1)
if(1)
if(1)
if(1)
if(1)
if(1)
if(1)
if(1)
if(1)
if(1)
if(1)
if(1)
if(1)
if(1)
if(1)
if(1)
if(1)
if(1)
if(1)
if(1)
if(1)
if(1)
if(1)
if(1)
if(1)
if(1)
if(1)
if(1)
if(1)
if(1)
if(1)
if(1)
if(1)
if(1)
if(1)
if(1)
if(1)
if(1)
if(1)
if(1)
if(1)
if(1)
if(1)
if(1)
if(1)
if(1)
if(1)
if(1)
if(1)
if(1)
if(1)
if(1)
if(1)
if(1)
if(1)
if(1)
if(1)
if(1)
if(1)
if(1)
if(1)
if(1)
if(1)
if(1)
if(1)
if(1)
if(1)
if(1)
if(1)
if(1)
if(1)
if(1)
if(1)
if(1)
if(1)
if(1)
if(1)
if(1)
if(1)
if(1)
if(1)
if(1)
if(1)
if(1)
if(1)
if(1)
if(1)
if(1)
if(1)
if(1)
if(1)
if(1)
if(1)
if(1)
if(1)
if(1)
if(1)
if(1)
if(1)
if(1)
if(1)
if(1)
if(1)
if(1)
if(1)
if(1)
if(1)
if(1)
if(1)
if(1)
if(1)
if(1)
if(1)
if(1)
if(1)
if(1)
if(1)
if(1)
if(1)
if(1)
if(1)
;






































































































































































































}
--- written
/more.c line 200: nested too deep
2 files, 1 faults

=== while
# So it is with each statement that has one in it: `while`.
--- /more.c
f(){
while(1)
while(1)
while(1)
while(1)
while(1)
while(1)
while(1)
while(1)
while(1)
while(1)
while(1)
while(1)
while(1)
while(1)
while(1)
while(1)
while(1)
while(1)
while(1)
while(1)
while(1)
while(1)
while(1)
while(1)
while(1)
while(1)
while(1)
while(1)
while(1)
while(1)
while(1)
while(1)
while(1)
while(1)
while(1)
while(1)
while(1)
while(1)
while(1)
while(1)
while(1)
while(1)
while(1)
while(1)
while(1)
while(1)
while(1)
while(1)
while(1)
while(1)
while(1)
while(1)
while(1)
while(1)
while(1)
while(1)
while(1)
while(1)
while(1)
while(1)
while(1)
while(1)
while(1)
while(1)
while(1)
while(1)
while(1)
while(1)
while(1)
while(1)
while(1)
while(1)
while(1)
while(1)
while(1)
while(1)
while(1)
while(1)
while(1)
while(1)
while(1)
while(1)
while(1)
while(1)
while(1)
while(1)
while(1)
while(1)
while(1)
while(1)
while(1)
while(1)
while(1)
while(1)
while(1)
while(1)
while(1)
while(1)
while(1)
while(1)
while(1)
while(1)
while(1)
while(1)
while(1)
while(1)
while(1)
while(1)
while(1)
while(1)
while(1)
while(1)
while(1)
while(1)
while(1)
while(1)
while(1)
while(1)
while(1)
while(1)
while(1)
while(1)
while(1)
while(1)
while(1)
while(1)
while(1)
while(1)
while(1)
while(1)
while(1)
while(1)
while(1)
while(1)
while(1)
while(1)
while(1)
while(1)
while(1)
while(1)
while(1)
while(1)
while(1)
while(1)
while(1)
while(1)
while(1)
while(1)
while(1)
while(1)
while(1)
while(1)
while(1)
while(1)
while(1)
while(1)
while(1)
while(1)
while(1)
while(1)
while(1)
while(1)
while(1)
while(1)
while(1)
while(1)
while(1)
while(1)
while(1)
while(1)
while(1)
while(1)
while(1)
while(1)
while(1)
while(1)
while(1)
while(1)
while(1)
while(1)
while(1)
while(1)
while(1)
while(1)
while(1)
while(1)
while(1)
while(1)
while(1)
while(1)
while(1)
while(1)
while(1)
while(1)
while(1)
while(1)
while(1)
while(1)
while(1)
;







































































































































































































}
--- /most.c
f(){
while(1)
while(1)
while(1)
while(1)
while(1)
while(1)
while(1)
while(1)
while(1)
while(1)
while(1)
while(1)
while(1)
while(1)
while(1)
while(1)
while(1)
while(1)
while(1)
while(1)
while(1)
while(1)
while(1)
while(1)
while(1)
while(1)
while(1)
while(1)
while(1)
while(1)
while(1)
while(1)
while(1)
while(1)
while(1)
while(1)
while(1)
while(1)
while(1)
while(1)
while(1)
while(1)
while(1)
while(1)
while(1)
while(1)
while(1)
while(1)
while(1)
while(1)
while(1)
while(1)
while(1)
while(1)
while(1)
while(1)
while(1)
while(1)
while(1)
while(1)
while(1)
while(1)
while(1)
while(1)
while(1)
while(1)
while(1)
while(1)
while(1)
while(1)
while(1)
while(1)
while(1)
while(1)
while(1)
while(1)
while(1)
while(1)
while(1)
while(1)
while(1)
while(1)
while(1)
while(1)
while(1)
while(1)
while(1)
while(1)
while(1)
while(1)
while(1)
while(1)
while(1)
while(1)
while(1)
while(1)
while(1)
while(1)
while(1)
while(1)
while(1)
while(1)
while(1)
while(1)
while(1)
while(1)
while(1)
while(1)
while(1)
while(1)
while(1)
while(1)
while(1)
while(1)
while(1)
while(1)
while(1)
while(1)
while(1)
while(1)
while(1)
while(1)
while(1)
while(1)
while(1)
while(1)
while(1)
while(1)
while(1)
while(1)
while(1)
while(1)
while(1)
while(1)
while(1)
while(1)
while(1)
while(1)
while(1)
while(1)
while(1)
while(1)
while(1)
while(1)
while(1)
while(1)
while(1)
while(1)
while(1)
while(1)
while(1)
while(1)
while(1)
while(1)
while(1)
while(1)
while(1)
while(1)
while(1)
while(1)
while(1)
while(1)
while(1)
while(1)
while(1)
while(1)
while(1)
while(1)
while(1)
while(1)
while(1)
while(1)
while(1)
while(1)
while(1)
while(1)
while(1)
while(1)
while(1)
while(1)
while(1)
while(1)
while(1)
while(1)
while(1)
while(1)
while(1)
while(1)
while(1)
while(1)
while(1)
while(1)
while(1)
while(1)
while(1)
while(1)
while(1)
while(1)
;






































































































































































































}
--- written
/more.c line 200: nested too deep
2 files, 1 faults

=== do
# `do`.
--- /more.c
f(){
do
do
do
do
do
do
do
do
do
do
do
do
do
do
do
do
do
do
do
do
do
do
do
do
do
do
do
do
do
do
do
do
do
do
do
do
do
do
do
do
do
do
do
do
do
do
do
do
do
do
do
do
do
do
do
do
do
do
do
do
do
do
do
do
do
do
do
do
do
do
do
do
do
do
do
do
do
do
do
do
do
do
do
do
do
do
do
do
do
do
do
do
do
do
do
do
do
do
do
do
do
do
do
do
do
do
do
do
do
do
do
do
do
do
do
do
do
do
do
do
do
do
do
do
do
do
do
do
do
do
do
do
do
do
do
do
do
do
do
do
do
do
do
do
do
do
do
do
do
do
do
do
do
do
do
do
do
do
do
do
do
do
do
do
do
do
do
do
do
do
do
do
do
do
do
do
do
do
do
do
do
do
do
do
do
do
do
do
do
do
do
do
do
do
do
do
do
do
do
;
while(1);
while(1);
while(1);
while(1);
while(1);
while(1);
while(1);
while(1);
while(1);
while(1);
while(1);
while(1);
while(1);
while(1);
while(1);
while(1);
while(1);
while(1);
while(1);
while(1);
while(1);
while(1);
while(1);
while(1);
while(1);
while(1);
while(1);
while(1);
while(1);
while(1);
while(1);
while(1);
while(1);
while(1);
while(1);
while(1);
while(1);
while(1);
while(1);
while(1);
while(1);
while(1);
while(1);
while(1);
while(1);
while(1);
while(1);
while(1);
while(1);
while(1);
while(1);
while(1);
while(1);
while(1);
while(1);
while(1);
while(1);
while(1);
while(1);
while(1);
while(1);
while(1);
while(1);
while(1);
while(1);
while(1);
while(1);
while(1);
while(1);
while(1);
while(1);
while(1);
while(1);
while(1);
while(1);
while(1);
while(1);
while(1);
while(1);
while(1);
while(1);
while(1);
while(1);
while(1);
while(1);
while(1);
while(1);
while(1);
while(1);
while(1);
while(1);
while(1);
while(1);
while(1);
while(1);
while(1);
while(1);
while(1);
while(1);
while(1);
while(1);
while(1);
while(1);
while(1);
while(1);
while(1);
while(1);
while(1);
while(1);
while(1);
while(1);
while(1);
while(1);
while(1);
while(1);
while(1);
while(1);
while(1);
while(1);
while(1);
while(1);
while(1);
while(1);
while(1);
while(1);
while(1);
while(1);
while(1);
while(1);
while(1);
while(1);
while(1);
while(1);
while(1);
while(1);
while(1);
while(1);
while(1);
while(1);
while(1);
while(1);
while(1);
while(1);
while(1);
while(1);
while(1);
while(1);
while(1);
while(1);
while(1);
while(1);
while(1);
while(1);
while(1);
while(1);
while(1);
while(1);
while(1);
while(1);
while(1);
while(1);
while(1);
while(1);
while(1);
while(1);
while(1);
while(1);
while(1);
while(1);
while(1);
while(1);
while(1);
while(1);
while(1);
while(1);
while(1);
while(1);
while(1);
while(1);
while(1);
while(1);
while(1);
while(1);
while(1);
while(1);
while(1);
while(1);
while(1);
while(1);
while(1);
while(1);
while(1);
while(1);
while(1);
while(1);
while(1);
while(1);
while(1);
while(1);
}
--- /most.c
f(){
do
do
do
do
do
do
do
do
do
do
do
do
do
do
do
do
do
do
do
do
do
do
do
do
do
do
do
do
do
do
do
do
do
do
do
do
do
do
do
do
do
do
do
do
do
do
do
do
do
do
do
do
do
do
do
do
do
do
do
do
do
do
do
do
do
do
do
do
do
do
do
do
do
do
do
do
do
do
do
do
do
do
do
do
do
do
do
do
do
do
do
do
do
do
do
do
do
do
do
do
do
do
do
do
do
do
do
do
do
do
do
do
do
do
do
do
do
do
do
do
do
do
do
do
do
do
do
do
do
do
do
do
do
do
do
do
do
do
do
do
do
do
do
do
do
do
do
do
do
do
do
do
do
do
do
do
do
do
do
do
do
do
do
do
do
do
do
do
do
do
do
do
do
do
do
do
do
do
do
do
do
do
do
do
do
do
do
do
do
do
do
do
do
do
do
do
do
do
;
while(1);
while(1);
while(1);
while(1);
while(1);
while(1);
while(1);
while(1);
while(1);
while(1);
while(1);
while(1);
while(1);
while(1);
while(1);
while(1);
while(1);
while(1);
while(1);
while(1);
while(1);
while(1);
while(1);
while(1);
while(1);
while(1);
while(1);
while(1);
while(1);
while(1);
while(1);
while(1);
while(1);
while(1);
while(1);
while(1);
while(1);
while(1);
while(1);
while(1);
while(1);
while(1);
while(1);
while(1);
while(1);
while(1);
while(1);
while(1);
while(1);
while(1);
while(1);
while(1);
while(1);
while(1);
while(1);
while(1);
while(1);
while(1);
while(1);
while(1);
while(1);
while(1);
while(1);
while(1);
while(1);
while(1);
while(1);
while(1);
while(1);
while(1);
while(1);
while(1);
while(1);
while(1);
while(1);
while(1);
while(1);
while(1);
while(1);
while(1);
while(1);
while(1);
while(1);
while(1);
while(1);
while(1);
while(1);
while(1);
while(1);
while(1);
while(1);
while(1);
while(1);
while(1);
while(1);
while(1);
while(1);
while(1);
while(1);
while(1);
while(1);
while(1);
while(1);
while(1);
while(1);
while(1);
while(1);
while(1);
while(1);
while(1);
while(1);
while(1);
while(1);
while(1);
while(1);
while(1);
while(1);
while(1);
while(1);
while(1);
while(1);
while(1);
while(1);
while(1);
while(1);
while(1);
while(1);
while(1);
while(1);
while(1);
while(1);
while(1);
while(1);
while(1);
while(1);
while(1);
while(1);
while(1);
while(1);
while(1);
while(1);
while(1);
while(1);
while(1);
while(1);
while(1);
while(1);
while(1);
while(1);
while(1);
while(1);
while(1);
while(1);
while(1);
while(1);
while(1);
while(1);
while(1);
while(1);
while(1);
while(1);
while(1);
while(1);
while(1);
while(1);
while(1);
while(1);
while(1);
while(1);
while(1);
while(1);
while(1);
while(1);
while(1);
while(1);
while(1);
while(1);
while(1);
while(1);
while(1);
while(1);
while(1);
while(1);
while(1);
while(1);
while(1);
while(1);
while(1);
while(1);
while(1);
while(1);
while(1);
while(1);
while(1);
while(1);
while(1);
while(1);
while(1);
}
--- written
/more.c line 200: nested too deep
2 files, 1 faults

=== for
# `for`, whose parts are no deeper than its body.
--- /more.c
f(){
for(;;)
for(;;)
for(;;)
for(;;)
for(;;)
for(;;)
for(;;)
for(;;)
for(;;)
for(;;)
for(;;)
for(;;)
for(;;)
for(;;)
for(;;)
for(;;)
for(;;)
for(;;)
for(;;)
for(;;)
for(;;)
for(;;)
for(;;)
for(;;)
for(;;)
for(;;)
for(;;)
for(;;)
for(;;)
for(;;)
for(;;)
for(;;)
for(;;)
for(;;)
for(;;)
for(;;)
for(;;)
for(;;)
for(;;)
for(;;)
for(;;)
for(;;)
for(;;)
for(;;)
for(;;)
for(;;)
for(;;)
for(;;)
for(;;)
for(;;)
for(;;)
for(;;)
for(;;)
for(;;)
for(;;)
for(;;)
for(;;)
for(;;)
for(;;)
for(;;)
for(;;)
for(;;)
for(;;)
for(;;)
for(;;)
for(;;)
for(;;)
for(;;)
for(;;)
for(;;)
for(;;)
for(;;)
for(;;)
for(;;)
for(;;)
for(;;)
for(;;)
for(;;)
for(;;)
for(;;)
for(;;)
for(;;)
for(;;)
for(;;)
for(;;)
for(;;)
for(;;)
for(;;)
for(;;)
for(;;)
for(;;)
for(;;)
for(;;)
for(;;)
for(;;)
for(;;)
for(;;)
for(;;)
for(;;)
for(;;)
for(;;)
for(;;)
for(;;)
for(;;)
for(;;)
for(;;)
for(;;)
for(;;)
for(;;)
for(;;)
for(;;)
for(;;)
for(;;)
for(;;)
for(;;)
for(;;)
for(;;)
for(;;)
for(;;)
for(;;)
for(;;)
for(;;)
for(;;)
for(;;)
for(;;)
for(;;)
for(;;)
for(;;)
for(;;)
for(;;)
for(;;)
for(;;)
for(;;)
for(;;)
for(;;)
for(;;)
for(;;)
for(;;)
for(;;)
for(;;)
for(;;)
for(;;)
for(;;)
for(;;)
for(;;)
for(;;)
for(;;)
for(;;)
for(;;)
for(;;)
for(;;)
for(;;)
for(;;)
for(;;)
for(;;)
for(;;)
for(;;)
for(;;)
for(;;)
for(;;)
for(;;)
for(;;)
for(;;)
for(;;)
for(;;)
for(;;)
for(;;)
for(;;)
for(;;)
for(;;)
for(;;)
for(;;)
for(;;)
for(;;)
for(;;)
for(;;)
for(;;)
for(;;)
for(;;)
for(;;)
for(;;)
for(;;)
for(;;)
for(;;)
for(;;)
for(;;)
for(;;)
for(;;)
for(;;)
for(;;)
for(;;)
for(;;)
for(;;)
for(;;)
for(;;)
for(;;)
for(;;)
for(;;)
for(;;)
;







































































































































































































}
--- /most.c
f(){
for(;;)
for(;;)
for(;;)
for(;;)
for(;;)
for(;;)
for(;;)
for(;;)
for(;;)
for(;;)
for(;;)
for(;;)
for(;;)
for(;;)
for(;;)
for(;;)
for(;;)
for(;;)
for(;;)
for(;;)
for(;;)
for(;;)
for(;;)
for(;;)
for(;;)
for(;;)
for(;;)
for(;;)
for(;;)
for(;;)
for(;;)
for(;;)
for(;;)
for(;;)
for(;;)
for(;;)
for(;;)
for(;;)
for(;;)
for(;;)
for(;;)
for(;;)
for(;;)
for(;;)
for(;;)
for(;;)
for(;;)
for(;;)
for(;;)
for(;;)
for(;;)
for(;;)
for(;;)
for(;;)
for(;;)
for(;;)
for(;;)
for(;;)
for(;;)
for(;;)
for(;;)
for(;;)
for(;;)
for(;;)
for(;;)
for(;;)
for(;;)
for(;;)
for(;;)
for(;;)
for(;;)
for(;;)
for(;;)
for(;;)
for(;;)
for(;;)
for(;;)
for(;;)
for(;;)
for(;;)
for(;;)
for(;;)
for(;;)
for(;;)
for(;;)
for(;;)
for(;;)
for(;;)
for(;;)
for(;;)
for(;;)
for(;;)
for(;;)
for(;;)
for(;;)
for(;;)
for(;;)
for(;;)
for(;;)
for(;;)
for(;;)
for(;;)
for(;;)
for(;;)
for(;;)
for(;;)
for(;;)
for(;;)
for(;;)
for(;;)
for(;;)
for(;;)
for(;;)
for(;;)
for(;;)
for(;;)
for(;;)
for(;;)
for(;;)
for(;;)
for(;;)
for(;;)
for(;;)
for(;;)
for(;;)
for(;;)
for(;;)
for(;;)
for(;;)
for(;;)
for(;;)
for(;;)
for(;;)
for(;;)
for(;;)
for(;;)
for(;;)
for(;;)
for(;;)
for(;;)
for(;;)
for(;;)
for(;;)
for(;;)
for(;;)
for(;;)
for(;;)
for(;;)
for(;;)
for(;;)
for(;;)
for(;;)
for(;;)
for(;;)
for(;;)
for(;;)
for(;;)
for(;;)
for(;;)
for(;;)
for(;;)
for(;;)
for(;;)
for(;;)
for(;;)
for(;;)
for(;;)
for(;;)
for(;;)
for(;;)
for(;;)
for(;;)
for(;;)
for(;;)
for(;;)
for(;;)
for(;;)
for(;;)
for(;;)
for(;;)
for(;;)
for(;;)
for(;;)
for(;;)
for(;;)
for(;;)
for(;;)
for(;;)
for(;;)
for(;;)
for(;;)
for(;;)
for(;;)
for(;;)
for(;;)
for(;;)
for(;;)
for(;;)
;






































































































































































































}
--- written
/more.c line 200: nested too deep
2 files, 1 faults

=== for_with_a_declaration
# `for` with a declaration.
--- /more.c
f(){
for(int a;b;c)
for(int a;b;c)
for(int a;b;c)
for(int a;b;c)
for(int a;b;c)
for(int a;b;c)
for(int a;b;c)
for(int a;b;c)
for(int a;b;c)
for(int a;b;c)
for(int a;b;c)
for(int a;b;c)
for(int a;b;c)
for(int a;b;c)
for(int a;b;c)
for(int a;b;c)
for(int a;b;c)
for(int a;b;c)
for(int a;b;c)
for(int a;b;c)
for(int a;b;c)
for(int a;b;c)
for(int a;b;c)
for(int a;b;c)
for(int a;b;c)
for(int a;b;c)
for(int a;b;c)
for(int a;b;c)
for(int a;b;c)
for(int a;b;c)
for(int a;b;c)
for(int a;b;c)
for(int a;b;c)
for(int a;b;c)
for(int a;b;c)
for(int a;b;c)
for(int a;b;c)
for(int a;b;c)
for(int a;b;c)
for(int a;b;c)
for(int a;b;c)
for(int a;b;c)
for(int a;b;c)
for(int a;b;c)
for(int a;b;c)
for(int a;b;c)
for(int a;b;c)
for(int a;b;c)
for(int a;b;c)
for(int a;b;c)
for(int a;b;c)
for(int a;b;c)
for(int a;b;c)
for(int a;b;c)
for(int a;b;c)
for(int a;b;c)
for(int a;b;c)
for(int a;b;c)
for(int a;b;c)
for(int a;b;c)
for(int a;b;c)
for(int a;b;c)
for(int a;b;c)
for(int a;b;c)
for(int a;b;c)
for(int a;b;c)
for(int a;b;c)
for(int a;b;c)
for(int a;b;c)
for(int a;b;c)
for(int a;b;c)
for(int a;b;c)
for(int a;b;c)
for(int a;b;c)
for(int a;b;c)
for(int a;b;c)
for(int a;b;c)
for(int a;b;c)
for(int a;b;c)
for(int a;b;c)
for(int a;b;c)
for(int a;b;c)
for(int a;b;c)
for(int a;b;c)
for(int a;b;c)
for(int a;b;c)
for(int a;b;c)
for(int a;b;c)
for(int a;b;c)
for(int a;b;c)
for(int a;b;c)
for(int a;b;c)
for(int a;b;c)
for(int a;b;c)
for(int a;b;c)
for(int a;b;c)
for(int a;b;c)
for(int a;b;c)
for(int a;b;c)
for(int a;b;c)
for(int a;b;c)
for(int a;b;c)
for(int a;b;c)
for(int a;b;c)
for(int a;b;c)
for(int a;b;c)
for(int a;b;c)
for(int a;b;c)
for(int a;b;c)
for(int a;b;c)
for(int a;b;c)
for(int a;b;c)
for(int a;b;c)
for(int a;b;c)
for(int a;b;c)
for(int a;b;c)
for(int a;b;c)
for(int a;b;c)
for(int a;b;c)
for(int a;b;c)
for(int a;b;c)
for(int a;b;c)
for(int a;b;c)
for(int a;b;c)
for(int a;b;c)
for(int a;b;c)
for(int a;b;c)
for(int a;b;c)
for(int a;b;c)
for(int a;b;c)
for(int a;b;c)
for(int a;b;c)
for(int a;b;c)
for(int a;b;c)
for(int a;b;c)
for(int a;b;c)
for(int a;b;c)
for(int a;b;c)
for(int a;b;c)
for(int a;b;c)
for(int a;b;c)
for(int a;b;c)
for(int a;b;c)
for(int a;b;c)
for(int a;b;c)
for(int a;b;c)
for(int a;b;c)
for(int a;b;c)
for(int a;b;c)
for(int a;b;c)
for(int a;b;c)
for(int a;b;c)
for(int a;b;c)
for(int a;b;c)
for(int a;b;c)
for(int a;b;c)
for(int a;b;c)
for(int a;b;c)
for(int a;b;c)
for(int a;b;c)
for(int a;b;c)
for(int a;b;c)
for(int a;b;c)
for(int a;b;c)
for(int a;b;c)
for(int a;b;c)
for(int a;b;c)
for(int a;b;c)
for(int a;b;c)
for(int a;b;c)
for(int a;b;c)
for(int a;b;c)
for(int a;b;c)
for(int a;b;c)
for(int a;b;c)
for(int a;b;c)
for(int a;b;c)
for(int a;b;c)
for(int a;b;c)
for(int a;b;c)
for(int a;b;c)
for(int a;b;c)
for(int a;b;c)
for(int a;b;c)
for(int a;b;c)
for(int a;b;c)
for(int a;b;c)
for(int a;b;c)
for(int a;b;c)
for(int a;b;c)
for(int a;b;c)
for(int a;b;c)
for(int a;b;c)
for(int a;b;c)
for(int a;b;c)
for(int a;b;c)
for(int a;b;c)
for(int a;b;c)
for(int a;b;c)
;







































































































































































































}
--- /most.c
f(){
for(int a;b;c)
for(int a;b;c)
for(int a;b;c)
for(int a;b;c)
for(int a;b;c)
for(int a;b;c)
for(int a;b;c)
for(int a;b;c)
for(int a;b;c)
for(int a;b;c)
for(int a;b;c)
for(int a;b;c)
for(int a;b;c)
for(int a;b;c)
for(int a;b;c)
for(int a;b;c)
for(int a;b;c)
for(int a;b;c)
for(int a;b;c)
for(int a;b;c)
for(int a;b;c)
for(int a;b;c)
for(int a;b;c)
for(int a;b;c)
for(int a;b;c)
for(int a;b;c)
for(int a;b;c)
for(int a;b;c)
for(int a;b;c)
for(int a;b;c)
for(int a;b;c)
for(int a;b;c)
for(int a;b;c)
for(int a;b;c)
for(int a;b;c)
for(int a;b;c)
for(int a;b;c)
for(int a;b;c)
for(int a;b;c)
for(int a;b;c)
for(int a;b;c)
for(int a;b;c)
for(int a;b;c)
for(int a;b;c)
for(int a;b;c)
for(int a;b;c)
for(int a;b;c)
for(int a;b;c)
for(int a;b;c)
for(int a;b;c)
for(int a;b;c)
for(int a;b;c)
for(int a;b;c)
for(int a;b;c)
for(int a;b;c)
for(int a;b;c)
for(int a;b;c)
for(int a;b;c)
for(int a;b;c)
for(int a;b;c)
for(int a;b;c)
for(int a;b;c)
for(int a;b;c)
for(int a;b;c)
for(int a;b;c)
for(int a;b;c)
for(int a;b;c)
for(int a;b;c)
for(int a;b;c)
for(int a;b;c)
for(int a;b;c)
for(int a;b;c)
for(int a;b;c)
for(int a;b;c)
for(int a;b;c)
for(int a;b;c)
for(int a;b;c)
for(int a;b;c)
for(int a;b;c)
for(int a;b;c)
for(int a;b;c)
for(int a;b;c)
for(int a;b;c)
for(int a;b;c)
for(int a;b;c)
for(int a;b;c)
for(int a;b;c)
for(int a;b;c)
for(int a;b;c)
for(int a;b;c)
for(int a;b;c)
for(int a;b;c)
for(int a;b;c)
for(int a;b;c)
for(int a;b;c)
for(int a;b;c)
for(int a;b;c)
for(int a;b;c)
for(int a;b;c)
for(int a;b;c)
for(int a;b;c)
for(int a;b;c)
for(int a;b;c)
for(int a;b;c)
for(int a;b;c)
for(int a;b;c)
for(int a;b;c)
for(int a;b;c)
for(int a;b;c)
for(int a;b;c)
for(int a;b;c)
for(int a;b;c)
for(int a;b;c)
for(int a;b;c)
for(int a;b;c)
for(int a;b;c)
for(int a;b;c)
for(int a;b;c)
for(int a;b;c)
for(int a;b;c)
for(int a;b;c)
for(int a;b;c)
for(int a;b;c)
for(int a;b;c)
for(int a;b;c)
for(int a;b;c)
for(int a;b;c)
for(int a;b;c)
for(int a;b;c)
for(int a;b;c)
for(int a;b;c)
for(int a;b;c)
for(int a;b;c)
for(int a;b;c)
for(int a;b;c)
for(int a;b;c)
for(int a;b;c)
for(int a;b;c)
for(int a;b;c)
for(int a;b;c)
for(int a;b;c)
for(int a;b;c)
for(int a;b;c)
for(int a;b;c)
for(int a;b;c)
for(int a;b;c)
for(int a;b;c)
for(int a;b;c)
for(int a;b;c)
for(int a;b;c)
for(int a;b;c)
for(int a;b;c)
for(int a;b;c)
for(int a;b;c)
for(int a;b;c)
for(int a;b;c)
for(int a;b;c)
for(int a;b;c)
for(int a;b;c)
for(int a;b;c)
for(int a;b;c)
for(int a;b;c)
for(int a;b;c)
for(int a;b;c)
for(int a;b;c)
for(int a;b;c)
for(int a;b;c)
for(int a;b;c)
for(int a;b;c)
for(int a;b;c)
for(int a;b;c)
for(int a;b;c)
for(int a;b;c)
for(int a;b;c)
for(int a;b;c)
for(int a;b;c)
for(int a;b;c)
for(int a;b;c)
for(int a;b;c)
for(int a;b;c)
for(int a;b;c)
for(int a;b;c)
for(int a;b;c)
for(int a;b;c)
for(int a;b;c)
for(int a;b;c)
for(int a;b;c)
for(int a;b;c)
for(int a;b;c)
for(int a;b;c)
for(int a;b;c)
for(int a;b;c)
for(int a;b;c)
for(int a;b;c)
for(int a;b;c)
for(int a;b;c)
for(int a;b;c)
for(int a;b;c)
;






































































































































































































}mixed a,b,c;
--- written
/more.c line 200: nested too deep
2 files, 1 faults

=== foreach
# `foreach`.
--- /more.c
f(){
foreach(a:b)
foreach(a:b)
foreach(a:b)
foreach(a:b)
foreach(a:b)
foreach(a:b)
foreach(a:b)
foreach(a:b)
foreach(a:b)
foreach(a:b)
foreach(a:b)
foreach(a:b)
foreach(a:b)
foreach(a:b)
foreach(a:b)
foreach(a:b)
foreach(a:b)
foreach(a:b)
foreach(a:b)
foreach(a:b)
foreach(a:b)
foreach(a:b)
foreach(a:b)
foreach(a:b)
foreach(a:b)
foreach(a:b)
foreach(a:b)
foreach(a:b)
foreach(a:b)
foreach(a:b)
foreach(a:b)
foreach(a:b)
foreach(a:b)
foreach(a:b)
foreach(a:b)
foreach(a:b)
foreach(a:b)
foreach(a:b)
foreach(a:b)
foreach(a:b)
foreach(a:b)
foreach(a:b)
foreach(a:b)
foreach(a:b)
foreach(a:b)
foreach(a:b)
foreach(a:b)
foreach(a:b)
foreach(a:b)
foreach(a:b)
foreach(a:b)
foreach(a:b)
foreach(a:b)
foreach(a:b)
foreach(a:b)
foreach(a:b)
foreach(a:b)
foreach(a:b)
foreach(a:b)
foreach(a:b)
foreach(a:b)
foreach(a:b)
foreach(a:b)
foreach(a:b)
foreach(a:b)
foreach(a:b)
foreach(a:b)
foreach(a:b)
foreach(a:b)
foreach(a:b)
foreach(a:b)
foreach(a:b)
foreach(a:b)
foreach(a:b)
foreach(a:b)
foreach(a:b)
foreach(a:b)
foreach(a:b)
foreach(a:b)
foreach(a:b)
foreach(a:b)
foreach(a:b)
foreach(a:b)
foreach(a:b)
foreach(a:b)
foreach(a:b)
foreach(a:b)
foreach(a:b)
foreach(a:b)
foreach(a:b)
foreach(a:b)
foreach(a:b)
foreach(a:b)
foreach(a:b)
foreach(a:b)
foreach(a:b)
foreach(a:b)
foreach(a:b)
foreach(a:b)
foreach(a:b)
foreach(a:b)
foreach(a:b)
foreach(a:b)
foreach(a:b)
foreach(a:b)
foreach(a:b)
foreach(a:b)
foreach(a:b)
foreach(a:b)
foreach(a:b)
foreach(a:b)
foreach(a:b)
foreach(a:b)
foreach(a:b)
foreach(a:b)
foreach(a:b)
foreach(a:b)
foreach(a:b)
foreach(a:b)
foreach(a:b)
foreach(a:b)
foreach(a:b)
foreach(a:b)
foreach(a:b)
foreach(a:b)
foreach(a:b)
foreach(a:b)
foreach(a:b)
foreach(a:b)
foreach(a:b)
foreach(a:b)
foreach(a:b)
foreach(a:b)
foreach(a:b)
foreach(a:b)
foreach(a:b)
foreach(a:b)
foreach(a:b)
foreach(a:b)
foreach(a:b)
foreach(a:b)
foreach(a:b)
foreach(a:b)
foreach(a:b)
foreach(a:b)
foreach(a:b)
foreach(a:b)
foreach(a:b)
foreach(a:b)
foreach(a:b)
foreach(a:b)
foreach(a:b)
foreach(a:b)
foreach(a:b)
foreach(a:b)
foreach(a:b)
foreach(a:b)
foreach(a:b)
foreach(a:b)
foreach(a:b)
foreach(a:b)
foreach(a:b)
foreach(a:b)
foreach(a:b)
foreach(a:b)
foreach(a:b)
foreach(a:b)
foreach(a:b)
foreach(a:b)
foreach(a:b)
foreach(a:b)
foreach(a:b)
foreach(a:b)
foreach(a:b)
foreach(a:b)
foreach(a:b)
foreach(a:b)
foreach(a:b)
foreach(a:b)
foreach(a:b)
foreach(a:b)
foreach(a:b)
foreach(a:b)
foreach(a:b)
foreach(a:b)
foreach(a:b)
foreach(a:b)
foreach(a:b)
foreach(a:b)
foreach(a:b)
foreach(a:b)
foreach(a:b)
foreach(a:b)
foreach(a:b)
foreach(a:b)
foreach(a:b)
foreach(a:b)
foreach(a:b)
foreach(a:b)
;







































































































































































































}
--- /most.c
f(){
foreach(a:b)
foreach(a:b)
foreach(a:b)
foreach(a:b)
foreach(a:b)
foreach(a:b)
foreach(a:b)
foreach(a:b)
foreach(a:b)
foreach(a:b)
foreach(a:b)
foreach(a:b)
foreach(a:b)
foreach(a:b)
foreach(a:b)
foreach(a:b)
foreach(a:b)
foreach(a:b)
foreach(a:b)
foreach(a:b)
foreach(a:b)
foreach(a:b)
foreach(a:b)
foreach(a:b)
foreach(a:b)
foreach(a:b)
foreach(a:b)
foreach(a:b)
foreach(a:b)
foreach(a:b)
foreach(a:b)
foreach(a:b)
foreach(a:b)
foreach(a:b)
foreach(a:b)
foreach(a:b)
foreach(a:b)
foreach(a:b)
foreach(a:b)
foreach(a:b)
foreach(a:b)
foreach(a:b)
foreach(a:b)
foreach(a:b)
foreach(a:b)
foreach(a:b)
foreach(a:b)
foreach(a:b)
foreach(a:b)
foreach(a:b)
foreach(a:b)
foreach(a:b)
foreach(a:b)
foreach(a:b)
foreach(a:b)
foreach(a:b)
foreach(a:b)
foreach(a:b)
foreach(a:b)
foreach(a:b)
foreach(a:b)
foreach(a:b)
foreach(a:b)
foreach(a:b)
foreach(a:b)
foreach(a:b)
foreach(a:b)
foreach(a:b)
foreach(a:b)
foreach(a:b)
foreach(a:b)
foreach(a:b)
foreach(a:b)
foreach(a:b)
foreach(a:b)
foreach(a:b)
foreach(a:b)
foreach(a:b)
foreach(a:b)
foreach(a:b)
foreach(a:b)
foreach(a:b)
foreach(a:b)
foreach(a:b)
foreach(a:b)
foreach(a:b)
foreach(a:b)
foreach(a:b)
foreach(a:b)
foreach(a:b)
foreach(a:b)
foreach(a:b)
foreach(a:b)
foreach(a:b)
foreach(a:b)
foreach(a:b)
foreach(a:b)
foreach(a:b)
foreach(a:b)
foreach(a:b)
foreach(a:b)
foreach(a:b)
foreach(a:b)
foreach(a:b)
foreach(a:b)
foreach(a:b)
foreach(a:b)
foreach(a:b)
foreach(a:b)
foreach(a:b)
foreach(a:b)
foreach(a:b)
foreach(a:b)
foreach(a:b)
foreach(a:b)
foreach(a:b)
foreach(a:b)
foreach(a:b)
foreach(a:b)
foreach(a:b)
foreach(a:b)
foreach(a:b)
foreach(a:b)
foreach(a:b)
foreach(a:b)
foreach(a:b)
foreach(a:b)
foreach(a:b)
foreach(a:b)
foreach(a:b)
foreach(a:b)
foreach(a:b)
foreach(a:b)
foreach(a:b)
foreach(a:b)
foreach(a:b)
foreach(a:b)
foreach(a:b)
foreach(a:b)
foreach(a:b)
foreach(a:b)
foreach(a:b)
foreach(a:b)
foreach(a:b)
foreach(a:b)
foreach(a:b)
foreach(a:b)
foreach(a:b)
foreach(a:b)
foreach(a:b)
foreach(a:b)
foreach(a:b)
foreach(a:b)
foreach(a:b)
foreach(a:b)
foreach(a:b)
foreach(a:b)
foreach(a:b)
foreach(a:b)
foreach(a:b)
foreach(a:b)
foreach(a:b)
foreach(a:b)
foreach(a:b)
foreach(a:b)
foreach(a:b)
foreach(a:b)
foreach(a:b)
foreach(a:b)
foreach(a:b)
foreach(a:b)
foreach(a:b)
foreach(a:b)
foreach(a:b)
foreach(a:b)
foreach(a:b)
foreach(a:b)
foreach(a:b)
foreach(a:b)
foreach(a:b)
foreach(a:b)
foreach(a:b)
foreach(a:b)
foreach(a:b)
foreach(a:b)
foreach(a:b)
foreach(a:b)
foreach(a:b)
foreach(a:b)
foreach(a:b)
foreach(a:b)
foreach(a:b)
foreach(a:b)
foreach(a:b)
foreach(a:b)
foreach(a:b)
foreach(a:b)
foreach(a:b)
;






































































































































































































}mixed a,b,c;
--- written
/more.c line 200: nested too deep
2 files, 1 faults

=== else
# The statement behind an `else`.
--- /more.c
f(){
if(1);else
if(1);else
if(1);else
if(1);else
if(1);else
if(1);else
if(1);else
if(1);else
if(1);else
if(1);else
if(1);else
if(1);else
if(1);else
if(1);else
if(1);else
if(1);else
if(1);else
if(1);else
if(1);else
if(1);else
if(1);else
if(1);else
if(1);else
if(1);else
if(1);else
if(1);else
if(1);else
if(1);else
if(1);else
if(1);else
if(1);else
if(1);else
if(1);else
if(1);else
if(1);else
if(1);else
if(1);else
if(1);else
if(1);else
if(1);else
if(1);else
if(1);else
if(1);else
if(1);else
if(1);else
if(1);else
if(1);else
if(1);else
if(1);else
if(1);else
if(1);else
if(1);else
if(1);else
if(1);else
if(1);else
if(1);else
if(1);else
if(1);else
if(1);else
if(1);else
if(1);else
if(1);else
if(1);else
if(1);else
if(1);else
if(1);else
if(1);else
if(1);else
if(1);else
if(1);else
if(1);else
if(1);else
if(1);else
if(1);else
if(1);else
if(1);else
if(1);else
if(1);else
if(1);else
if(1);else
if(1);else
if(1);else
if(1);else
if(1);else
if(1);else
if(1);else
if(1);else
if(1);else
if(1);else
if(1);else
if(1);else
if(1);else
if(1);else
if(1);else
if(1);else
if(1);else
if(1);else
if(1);else
if(1);else
if(1);else
if(1);else
if(1);else
if(1);else
if(1);else
if(1);else
if(1);else
if(1);else
if(1);else
if(1);else
if(1);else
if(1);else
if(1);else
if(1);else
if(1);else
if(1);else
if(1);else
if(1);else
if(1);else
if(1);else
if(1);else
if(1);else
if(1);else
if(1);else
if(1);else
if(1);else
if(1);else
if(1);else
if(1);else
if(1);else
if(1);else
if(1);else
if(1);else
if(1);else
if(1);else
if(1);else
if(1);else
if(1);else
if(1);else
if(1);else
if(1);else
if(1);else
if(1);else
if(1);else
if(1);else
if(1);else
if(1);else
if(1);else
if(1);else
if(1);else
if(1);else
if(1);else
if(1);else
if(1);else
if(1);else
if(1);else
if(1);else
if(1);else
if(1);else
if(1);else
if(1);else
if(1);else
if(1);else
if(1);else
if(1);else
if(1);else
if(1);else
if(1);else
if(1);else
if(1);else
if(1);else
if(1);else
if(1);else
if(1);else
if(1);else
if(1);else
if(1);else
if(1);else
if(1);else
if(1);else
if(1);else
if(1);else
if(1);else
if(1);else
if(1);else
if(1);else
if(1);else
if(1);else
if(1);else
if(1);else
if(1);else
if(1);else
if(1);else
if(1);else
if(1);else
if(1);else
if(1);else
if(1);else
if(1);else
if(1);else
;







































































































































































































}
--- /most.c
f(){
if(1);else
if(1);else
if(1);else
if(1);else
if(1);else
if(1);else
if(1);else
if(1);else
if(1);else
if(1);else
if(1);else
if(1);else
if(1);else
if(1);else
if(1);else
if(1);else
if(1);else
if(1);else
if(1);else
if(1);else
if(1);else
if(1);else
if(1);else
if(1);else
if(1);else
if(1);else
if(1);else
if(1);else
if(1);else
if(1);else
if(1);else
if(1);else
if(1);else
if(1);else
if(1);else
if(1);else
if(1);else
if(1);else
if(1);else
if(1);else
if(1);else
if(1);else
if(1);else
if(1);else
if(1);else
if(1);else
if(1);else
if(1);else
if(1);else
if(1);else
if(1);else
if(1);else
if(1);else
if(1);else
if(1);else
if(1);else
if(1);else
if(1);else
if(1);else
if(1);else
if(1);else
if(1);else
if(1);else
if(1);else
if(1);else
if(1);else
if(1);else
if(1);else
if(1);else
if(1);else
if(1);else
if(1);else
if(1);else
if(1);else
if(1);else
if(1);else
if(1);else
if(1);else
if(1);else
if(1);else
if(1);else
if(1);else
if(1);else
if(1);else
if(1);else
if(1);else
if(1);else
if(1);else
if(1);else
if(1);else
if(1);else
if(1);else
if(1);else
if(1);else
if(1);else
if(1);else
if(1);else
if(1);else
if(1);else
if(1);else
if(1);else
if(1);else
if(1);else
if(1);else
if(1);else
if(1);else
if(1);else
if(1);else
if(1);else
if(1);else
if(1);else
if(1);else
if(1);else
if(1);else
if(1);else
if(1);else
if(1);else
if(1);else
if(1);else
if(1);else
if(1);else
if(1);else
if(1);else
if(1);else
if(1);else
if(1);else
if(1);else
if(1);else
if(1);else
if(1);else
if(1);else
if(1);else
if(1);else
if(1);else
if(1);else
if(1);else
if(1);else
if(1);else
if(1);else
if(1);else
if(1);else
if(1);else
if(1);else
if(1);else
if(1);else
if(1);else
if(1);else
if(1);else
if(1);else
if(1);else
if(1);else
if(1);else
if(1);else
if(1);else
if(1);else
if(1);else
if(1);else
if(1);else
if(1);else
if(1);else
if(1);else
if(1);else
if(1);else
if(1);else
if(1);else
if(1);else
if(1);else
if(1);else
if(1);else
if(1);else
if(1);else
if(1);else
if(1);else
if(1);else
if(1);else
if(1);else
if(1);else
if(1);else
if(1);else
if(1);else
if(1);else
if(1);else
if(1);else
if(1);else
if(1);else
if(1);else
if(1);else
if(1);else
if(1);else
if(1);else
if(1);else
if(1);else
if(1);else
if(1);else
if(1);else
if(1);else
if(1);else
if(1);else
;






































































































































































































}
--- written
/more.c line 200: nested too deep
2 files, 1 faults

=== switch
# The statements of a `switch`.
--- /more.c
f(){
switch(1){case 1:
switch(1){case 1:
switch(1){case 1:
switch(1){case 1:
switch(1){case 1:
switch(1){case 1:
switch(1){case 1:
switch(1){case 1:
switch(1){case 1:
switch(1){case 1:
switch(1){case 1:
switch(1){case 1:
switch(1){case 1:
switch(1){case 1:
switch(1){case 1:
switch(1){case 1:
switch(1){case 1:
switch(1){case 1:
switch(1){case 1:
switch(1){case 1:
switch(1){case 1:
switch(1){case 1:
switch(1){case 1:
switch(1){case 1:
switch(1){case 1:
switch(1){case 1:
switch(1){case 1:
switch(1){case 1:
switch(1){case 1:
switch(1){case 1:
switch(1){case 1:
switch(1){case 1:
switch(1){case 1:
switch(1){case 1:
switch(1){case 1:
switch(1){case 1:
switch(1){case 1:
switch(1){case 1:
switch(1){case 1:
switch(1){case 1:
switch(1){case 1:
switch(1){case 1:
switch(1){case 1:
switch(1){case 1:
switch(1){case 1:
switch(1){case 1:
switch(1){case 1:
switch(1){case 1:
switch(1){case 1:
switch(1){case 1:
switch(1){case 1:
switch(1){case 1:
switch(1){case 1:
switch(1){case 1:
switch(1){case 1:
switch(1){case 1:
switch(1){case 1:
switch(1){case 1:
switch(1){case 1:
switch(1){case 1:
switch(1){case 1:
switch(1){case 1:
switch(1){case 1:
switch(1){case 1:
switch(1){case 1:
switch(1){case 1:
switch(1){case 1:
switch(1){case 1:
switch(1){case 1:
switch(1){case 1:
switch(1){case 1:
switch(1){case 1:
switch(1){case 1:
switch(1){case 1:
switch(1){case 1:
switch(1){case 1:
switch(1){case 1:
switch(1){case 1:
switch(1){case 1:
switch(1){case 1:
switch(1){case 1:
switch(1){case 1:
switch(1){case 1:
switch(1){case 1:
switch(1){case 1:
switch(1){case 1:
switch(1){case 1:
switch(1){case 1:
switch(1){case 1:
switch(1){case 1:
switch(1){case 1:
switch(1){case 1:
switch(1){case 1:
switch(1){case 1:
switch(1){case 1:
switch(1){case 1:
switch(1){case 1:
switch(1){case 1:
switch(1){case 1:
switch(1){case 1:
switch(1){case 1:
switch(1){case 1:
switch(1){case 1:
switch(1){case 1:
switch(1){case 1:
switch(1){case 1:
switch(1){case 1:
switch(1){case 1:
switch(1){case 1:
switch(1){case 1:
switch(1){case 1:
switch(1){case 1:
switch(1){case 1:
switch(1){case 1:
switch(1){case 1:
switch(1){case 1:
switch(1){case 1:
switch(1){case 1:
switch(1){case 1:
switch(1){case 1:
switch(1){case 1:
switch(1){case 1:
switch(1){case 1:
switch(1){case 1:
switch(1){case 1:
switch(1){case 1:
switch(1){case 1:
switch(1){case 1:
switch(1){case 1:
switch(1){case 1:
switch(1){case 1:
switch(1){case 1:
switch(1){case 1:
switch(1){case 1:
switch(1){case 1:
switch(1){case 1:
switch(1){case 1:
switch(1){case 1:
switch(1){case 1:
switch(1){case 1:
switch(1){case 1:
switch(1){case 1:
switch(1){case 1:
switch(1){case 1:
switch(1){case 1:
switch(1){case 1:
switch(1){case 1:
switch(1){case 1:
switch(1){case 1:
switch(1){case 1:
switch(1){case 1:
switch(1){case 1:
switch(1){case 1:
switch(1){case 1:
switch(1){case 1:
switch(1){case 1:
switch(1){case 1:
switch(1){case 1:
switch(1){case 1:
switch(1){case 1:
switch(1){case 1:
switch(1){case 1:
switch(1){case 1:
switch(1){case 1:
switch(1){case 1:
switch(1){case 1:
switch(1){case 1:
switch(1){case 1:
switch(1){case 1:
switch(1){case 1:
switch(1){case 1:
switch(1){case 1:
switch(1){case 1:
switch(1){case 1:
switch(1){case 1:
switch(1){case 1:
switch(1){case 1:
switch(1){case 1:
switch(1){case 1:
switch(1){case 1:
switch(1){case 1:
switch(1){case 1:
switch(1){case 1:
switch(1){case 1:
switch(1){case 1:
switch(1){case 1:
switch(1){case 1:
switch(1){case 1:
switch(1){case 1:
switch(1){case 1:
switch(1){case 1:
switch(1){case 1:
switch(1){case 1:
switch(1){case 1:
switch(1){case 1:
switch(1){case 1:
switch(1){case 1:
switch(1){case 1:
switch(1){case 1:
;
}
}
}
}
}
}
}
}
}
}
}
}
}
}
}
}
}
}
}
}
}
}
}
}
}
}
}
}
}
}
}
}
}
}
}
}
}
}
}
}
}
}
}
}
}
}
}
}
}
}
}
}
}
}
}
}
}
}
}
}
}
}
}
}
}
}
}
}
}
}
}
}
}
}
}
}
}
}
}
}
}
}
}
}
}
}
}
}
}
}
}
}
}
}
}
}
}
}
}
}
}
}
}
}
}
}
}
}
}
}
}
}
}
}
}
}
}
}
}
}
}
}
}
}
}
}
}
}
}
}
}
}
}
}
}
}
}
}
}
}
}
}
}
}
}
}
}
}
}
}
}
}
}
}
}
}
}
}
}
}
}
}
}
}
}
}
}
}
}
}
}
}
}
}
}
}
}
}
}
}
}
}
}
}
}
}
}
}
}
}
}
}
}
}
}
}
}
}
}
}
--- /most.c
f(){
switch(1){case 1:
switch(1){case 1:
switch(1){case 1:
switch(1){case 1:
switch(1){case 1:
switch(1){case 1:
switch(1){case 1:
switch(1){case 1:
switch(1){case 1:
switch(1){case 1:
switch(1){case 1:
switch(1){case 1:
switch(1){case 1:
switch(1){case 1:
switch(1){case 1:
switch(1){case 1:
switch(1){case 1:
switch(1){case 1:
switch(1){case 1:
switch(1){case 1:
switch(1){case 1:
switch(1){case 1:
switch(1){case 1:
switch(1){case 1:
switch(1){case 1:
switch(1){case 1:
switch(1){case 1:
switch(1){case 1:
switch(1){case 1:
switch(1){case 1:
switch(1){case 1:
switch(1){case 1:
switch(1){case 1:
switch(1){case 1:
switch(1){case 1:
switch(1){case 1:
switch(1){case 1:
switch(1){case 1:
switch(1){case 1:
switch(1){case 1:
switch(1){case 1:
switch(1){case 1:
switch(1){case 1:
switch(1){case 1:
switch(1){case 1:
switch(1){case 1:
switch(1){case 1:
switch(1){case 1:
switch(1){case 1:
switch(1){case 1:
switch(1){case 1:
switch(1){case 1:
switch(1){case 1:
switch(1){case 1:
switch(1){case 1:
switch(1){case 1:
switch(1){case 1:
switch(1){case 1:
switch(1){case 1:
switch(1){case 1:
switch(1){case 1:
switch(1){case 1:
switch(1){case 1:
switch(1){case 1:
switch(1){case 1:
switch(1){case 1:
switch(1){case 1:
switch(1){case 1:
switch(1){case 1:
switch(1){case 1:
switch(1){case 1:
switch(1){case 1:
switch(1){case 1:
switch(1){case 1:
switch(1){case 1:
switch(1){case 1:
switch(1){case 1:
switch(1){case 1:
switch(1){case 1:
switch(1){case 1:
switch(1){case 1:
switch(1){case 1:
switch(1){case 1:
switch(1){case 1:
switch(1){case 1:
switch(1){case 1:
switch(1){case 1:
switch(1){case 1:
switch(1){case 1:
switch(1){case 1:
switch(1){case 1:
switch(1){case 1:
switch(1){case 1:
switch(1){case 1:
switch(1){case 1:
switch(1){case 1:
switch(1){case 1:
switch(1){case 1:
switch(1){case 1:
switch(1){case 1:
switch(1){case 1:
switch(1){case 1:
switch(1){case 1:
switch(1){case 1:
switch(1){case 1:
switch(1){case 1:
switch(1){case 1:
switch(1){case 1:
switch(1){case 1:
switch(1){case 1:
switch(1){case 1:
switch(1){case 1:
switch(1){case 1:
switch(1){case 1:
switch(1){case 1:
switch(1){case 1:
switch(1){case 1:
switch(1){case 1:
switch(1){case 1:
switch(1){case 1:
switch(1){case 1:
switch(1){case 1:
switch(1){case 1:
switch(1){case 1:
switch(1){case 1:
switch(1){case 1:
switch(1){case 1:
switch(1){case 1:
switch(1){case 1:
switch(1){case 1:
switch(1){case 1:
switch(1){case 1:
switch(1){case 1:
switch(1){case 1:
switch(1){case 1:
switch(1){case 1:
switch(1){case 1:
switch(1){case 1:
switch(1){case 1:
switch(1){case 1:
switch(1){case 1:
switch(1){case 1:
switch(1){case 1:
switch(1){case 1:
switch(1){case 1:
switch(1){case 1:
switch(1){case 1:
switch(1){case 1:
switch(1){case 1:
switch(1){case 1:
switch(1){case 1:
switch(1){case 1:
switch(1){case 1:
switch(1){case 1:
switch(1){case 1:
switch(1){case 1:
switch(1){case 1:
switch(1){case 1:
switch(1){case 1:
switch(1){case 1:
switch(1){case 1:
switch(1){case 1:
switch(1){case 1:
switch(1){case 1:
switch(1){case 1:
switch(1){case 1:
switch(1){case 1:
switch(1){case 1:
switch(1){case 1:
switch(1){case 1:
switch(1){case 1:
switch(1){case 1:
switch(1){case 1:
switch(1){case 1:
switch(1){case 1:
switch(1){case 1:
switch(1){case 1:
switch(1){case 1:
switch(1){case 1:
switch(1){case 1:
switch(1){case 1:
switch(1){case 1:
switch(1){case 1:
switch(1){case 1:
switch(1){case 1:
switch(1){case 1:
switch(1){case 1:
switch(1){case 1:
switch(1){case 1:
switch(1){case 1:
switch(1){case 1:
switch(1){case 1:
switch(1){case 1:
switch(1){case 1:
switch(1){case 1:
switch(1){case 1:
switch(1){case 1:
switch(1){case 1:
;
}
}
}
}
}
}
}
}
}
}
}
}
}
}
}
}
}
}
}
}
}
}
}
}
}
}
}
}
}
}
}
}
}
}
}
}
}
}
}
}
}
}
}
}
}
}
}
}
}
}
}
}
}
}
}
}
}
}
}
}
}
}
}
}
}
}
}
}
}
}
}
}
}
}
}
}
}
}
}
}
}
}
}
}
}
}
}
}
}
}
}
}
}
}
}
}
}
}
}
}
}
}
}
}
}
}
}
}
}
}
}
}
}
}
}
}
}
}
}
}
}
}
}
}
}
}
}
}
}
}
}
}
}
}
}
}
}
}
}
}
}
}
}
}
}
}
}
}
}
}
}
}
}
}
}
}
}
}
}
}
}
}
}
}
}
}
}
}
}
}
}
}
}
}
}
}
}
}
}
}
}
}
}
}
}
}
}
}
}
}
}
}
}
}
}
}
}
}
}
--- written
/more.c line 200: nested too deep
2 files, 1 faults

=== block
# In the last block nothing has to stand.
--- /more.c
f(){
{
{
{
{
{
{
{
{
{
{
{
{
{
{
{
{
{
{
{
{
{
{
{
{
{
{
{
{
{
{
{
{
{
{
{
{
{
{
{
{
{
{
{
{
{
{
{
{
{
{
{
{
{
{
{
{
{
{
{
{
{
{
{
{
{
{
{
{
{
{
{
{
{
{
{
{
{
{
{
{
{
{
{
{
{
{
{
{
{
{
{
{
{
{
{
{
{
{
{
{
{
{
{
{
{
{
{
{
{
{
{
{
{
{
{
{
{
{
{
{
{
{
{
{
{
{
{
{
{
{
{
{
{
{
{
{
{
{
{
{
{
{
{
{
{
{
{
{
{
{
{
{
{
{
{
{
{
{
{
{
{
{
{
{
{
{
{
{
{
{
{
{
{
{
{
{
{
{
{
{
{
{
{
{
{
{
{
{
{
{
{
{
{
{
{
{
{
{
{
{

}
}
}
}
}
}
}
}
}
}
}
}
}
}
}
}
}
}
}
}
}
}
}
}
}
}
}
}
}
}
}
}
}
}
}
}
}
}
}
}
}
}
}
}
}
}
}
}
}
}
}
}
}
}
}
}
}
}
}
}
}
}
}
}
}
}
}
}
}
}
}
}
}
}
}
}
}
}
}
}
}
}
}
}
}
}
}
}
}
}
}
}
}
}
}
}
}
}
}
}
}
}
}
}
}
}
}
}
}
}
}
}
}
}
}
}
}
}
}
}
}
}
}
}
}
}
}
}
}
}
}
}
}
}
}
}
}
}
}
}
}
}
}
}
}
}
}
}
}
}
}
}
}
}
}
}
}
}
}
}
}
}
}
}
}
}
}
}
}
}
}
}
}
}
}
}
}
}
}
}
}
}
}
}
}
}
}
}
}
}
}
}
}
}
}
}
}
}
}
}
}
--- /most.c
f(){
{
{
{
{
{
{
{
{
{
{
{
{
{
{
{
{
{
{
{
{
{
{
{
{
{
{
{
{
{
{
{
{
{
{
{
{
{
{
{
{
{
{
{
{
{
{
{
{
{
{
{
{
{
{
{
{
{
{
{
{
{
{
{
{
{
{
{
{
{
{
{
{
{
{
{
{
{
{
{
{
{
{
{
{
{
{
{
{
{
{
{
{
{
{
{
{
{
{
{
{
{
{
{
{
{
{
{
{
{
{
{
{
{
{
{
{
{
{
{
{
{
{
{
{
{
{
{
{
{
{
{
{
{
{
{
{
{
{
{
{
{
{
{
{
{
{
{
{
{
{
{
{
{
{
{
{
{
{
{
{
{
{
{
{
{
{
{
{
{
{
{
{
{
{
{
{
{
{
{
{
{
{
{
{
{
{
{
{
{
{
{
{
{
{
{
{
{
{
{

}
}
}
}
}
}
}
}
}
}
}
}
}
}
}
}
}
}
}
}
}
}
}
}
}
}
}
}
}
}
}
}
}
}
}
}
}
}
}
}
}
}
}
}
}
}
}
}
}
}
}
}
}
}
}
}
}
}
}
}
}
}
}
}
}
}
}
}
}
}
}
}
}
}
}
}
}
}
}
}
}
}
}
}
}
}
}
}
}
}
}
}
}
}
}
}
}
}
}
}
}
}
}
}
}
}
}
}
}
}
}
}
}
}
}
}
}
}
}
}
}
}
}
}
}
}
}
}
}
}
}
}
}
}
}
}
}
}
}
}
}
}
}
}
}
}
}
}
}
}
}
}
}
}
}
}
}
}
}
}
}
}
}
}
}
}
}
}
}
}
}
}
}
}
}
}
}
}
}
}
}
}
}
}
}
}
}
}
}
}
}
}
}
}
}
}
}
}
}
}
--- written
/more.c line 201: nested too deep
2 files, 1 faults

=== if_and_while
# Two levels each: the hundredth `if` has level 200, and its test one more.
--- /more.c
f(){
if(1)while(2)
if(1)while(2)
if(1)while(2)
if(1)while(2)
if(1)while(2)
if(1)while(2)
if(1)while(2)
if(1)while(2)
if(1)while(2)
if(1)while(2)
if(1)while(2)
if(1)while(2)
if(1)while(2)
if(1)while(2)
if(1)while(2)
if(1)while(2)
if(1)while(2)
if(1)while(2)
if(1)while(2)
if(1)while(2)
if(1)while(2)
if(1)while(2)
if(1)while(2)
if(1)while(2)
if(1)while(2)
if(1)while(2)
if(1)while(2)
if(1)while(2)
if(1)while(2)
if(1)while(2)
if(1)while(2)
if(1)while(2)
if(1)while(2)
if(1)while(2)
if(1)while(2)
if(1)while(2)
if(1)while(2)
if(1)while(2)
if(1)while(2)
if(1)while(2)
if(1)while(2)
if(1)while(2)
if(1)while(2)
if(1)while(2)
if(1)while(2)
if(1)while(2)
if(1)while(2)
if(1)while(2)
if(1)while(2)
if(1)while(2)
if(1)while(2)
if(1)while(2)
if(1)while(2)
if(1)while(2)
if(1)while(2)
if(1)while(2)
if(1)while(2)
if(1)while(2)
if(1)while(2)
if(1)while(2)
if(1)while(2)
if(1)while(2)
if(1)while(2)
if(1)while(2)
if(1)while(2)
if(1)while(2)
if(1)while(2)
if(1)while(2)
if(1)while(2)
if(1)while(2)
if(1)while(2)
if(1)while(2)
if(1)while(2)
if(1)while(2)
if(1)while(2)
if(1)while(2)
if(1)while(2)
if(1)while(2)
if(1)while(2)
if(1)while(2)
if(1)while(2)
if(1)while(2)
if(1)while(2)
if(1)while(2)
if(1)while(2)
if(1)while(2)
if(1)while(2)
if(1)while(2)
if(1)while(2)
if(1)while(2)
if(1)while(2)
if(1)while(2)
if(1)while(2)
if(1)while(2)
if(1)while(2)
if(1)while(2)
if(1)while(2)
if(1)while(2)
if(1)while(2)
if(1)while(2)
;




































































































}
--- /most.c
f(){
if(1)while(2)
if(1)while(2)
if(1)while(2)
if(1)while(2)
if(1)while(2)
if(1)while(2)
if(1)while(2)
if(1)while(2)
if(1)while(2)
if(1)while(2)
if(1)while(2)
if(1)while(2)
if(1)while(2)
if(1)while(2)
if(1)while(2)
if(1)while(2)
if(1)while(2)
if(1)while(2)
if(1)while(2)
if(1)while(2)
if(1)while(2)
if(1)while(2)
if(1)while(2)
if(1)while(2)
if(1)while(2)
if(1)while(2)
if(1)while(2)
if(1)while(2)
if(1)while(2)
if(1)while(2)
if(1)while(2)
if(1)while(2)
if(1)while(2)
if(1)while(2)
if(1)while(2)
if(1)while(2)
if(1)while(2)
if(1)while(2)
if(1)while(2)
if(1)while(2)
if(1)while(2)
if(1)while(2)
if(1)while(2)
if(1)while(2)
if(1)while(2)
if(1)while(2)
if(1)while(2)
if(1)while(2)
if(1)while(2)
if(1)while(2)
if(1)while(2)
if(1)while(2)
if(1)while(2)
if(1)while(2)
if(1)while(2)
if(1)while(2)
if(1)while(2)
if(1)while(2)
if(1)while(2)
if(1)while(2)
if(1)while(2)
if(1)while(2)
if(1)while(2)
if(1)while(2)
if(1)while(2)
if(1)while(2)
if(1)while(2)
if(1)while(2)
if(1)while(2)
if(1)while(2)
if(1)while(2)
if(1)while(2)
if(1)while(2)
if(1)while(2)
if(1)while(2)
if(1)while(2)
if(1)while(2)
if(1)while(2)
if(1)while(2)
if(1)while(2)
if(1)while(2)
if(1)while(2)
if(1)while(2)
if(1)while(2)
if(1)while(2)
if(1)while(2)
if(1)while(2)
if(1)while(2)
if(1)while(2)
if(1)while(2)
if(1)while(2)
if(1)while(2)
if(1)while(2)
if(1)while(2)
if(1)while(2)
if(1)while(2)
if(1)while(2)
if(1)while(2)
if(1)while(2)
;



































































































}
--- written
/more.c line 101: nested too deep
2 files, 1 faults

=== if_and_block
# An `if` and its block.
--- /more.c
f(){
if(1){
if(1){
if(1){
if(1){
if(1){
if(1){
if(1){
if(1){
if(1){
if(1){
if(1){
if(1){
if(1){
if(1){
if(1){
if(1){
if(1){
if(1){
if(1){
if(1){
if(1){
if(1){
if(1){
if(1){
if(1){
if(1){
if(1){
if(1){
if(1){
if(1){
if(1){
if(1){
if(1){
if(1){
if(1){
if(1){
if(1){
if(1){
if(1){
if(1){
if(1){
if(1){
if(1){
if(1){
if(1){
if(1){
if(1){
if(1){
if(1){
if(1){
if(1){
if(1){
if(1){
if(1){
if(1){
if(1){
if(1){
if(1){
if(1){
if(1){
if(1){
if(1){
if(1){
if(1){
if(1){
if(1){
if(1){
if(1){
if(1){
if(1){
if(1){
if(1){
if(1){
if(1){
if(1){
if(1){
if(1){
if(1){
if(1){
if(1){
if(1){
if(1){
if(1){
if(1){
if(1){
if(1){
if(1){
if(1){
if(1){
if(1){
if(1){
if(1){
if(1){
if(1){
if(1){
if(1){
if(1){
if(1){
if(1){
if(1){
;
}
}
}
}
}
}
}
}
}
}
}
}
}
}
}
}
}
}
}
}
}
}
}
}
}
}
}
}
}
}
}
}
}
}
}
}
}
}
}
}
}
}
}
}
}
}
}
}
}
}
}
}
}
}
}
}
}
}
}
}
}
}
}
}
}
}
}
}
}
}
}
}
}
}
}
}
}
}
}
}
}
}
}
}
}
}
}
}
}
}
}
}
}
}
}
}
}
}
}
}
}
--- /most.c
f(){
if(1){
if(1){
if(1){
if(1){
if(1){
if(1){
if(1){
if(1){
if(1){
if(1){
if(1){
if(1){
if(1){
if(1){
if(1){
if(1){
if(1){
if(1){
if(1){
if(1){
if(1){
if(1){
if(1){
if(1){
if(1){
if(1){
if(1){
if(1){
if(1){
if(1){
if(1){
if(1){
if(1){
if(1){
if(1){
if(1){
if(1){
if(1){
if(1){
if(1){
if(1){
if(1){
if(1){
if(1){
if(1){
if(1){
if(1){
if(1){
if(1){
if(1){
if(1){
if(1){
if(1){
if(1){
if(1){
if(1){
if(1){
if(1){
if(1){
if(1){
if(1){
if(1){
if(1){
if(1){
if(1){
if(1){
if(1){
if(1){
if(1){
if(1){
if(1){
if(1){
if(1){
if(1){
if(1){
if(1){
if(1){
if(1){
if(1){
if(1){
if(1){
if(1){
if(1){
if(1){
if(1){
if(1){
if(1){
if(1){
if(1){
if(1){
if(1){
if(1){
if(1){
if(1){
if(1){
if(1){
if(1){
if(1){
if(1){
;
}
}
}
}
}
}
}
}
}
}
}
}
}
}
}
}
}
}
}
}
}
}
}
}
}
}
}
}
}
}
}
}
}
}
}
}
}
}
}
}
}
}
}
}
}
}
}
}
}
}
}
}
}
}
}
}
}
}
}
}
}
}
}
}
}
}
}
}
}
}
}
}
}
}
}
}
}
}
}
}
}
}
}
}
}
}
}
}
}
}
}
}
}
}
}
}
}
}
}
}
--- written
/more.c line 101: nested too deep
2 files, 1 faults

=== operator
# A return of a function has level 2, and its value level 3.
--- /more.c
f(){return 
!
!
!
!
!
!
!
!
!
!
!
!
!
!
!
!
!
!
!
!
!
!
!
!
!
!
!
!
!
!
!
!
!
!
!
!
!
!
!
!
!
!
!
!
!
!
!
!
!
!
!
!
!
!
!
!
!
!
!
!
!
!
!
!
!
!
!
!
!
!
!
!
!
!
!
!
!
!
!
!
!
!
!
!
!
!
!
!
!
!
!
!
!
!
!
!
!
!
!
!
!
!
!
!
!
!
!
!
!
!
!
!
!
!
!
!
!
!
!
!
!
!
!
!
!
!
!
!
!
!
!
!
!
!
!
!
!
!
!
!
!
!
!
!
!
!
!
!
!
!
!
!
!
!
!
!
!
!
!
!
!
!
!
!
!
!
!
!
!
!
!
!
!
!
!
!
!
!
!
!
!
!
!
!
!
!
!
!
!
!
!
!
!
!
!
!
!
!
1






































































































































































































;}
--- /most.c
f(){return 
!
!
!
!
!
!
!
!
!
!
!
!
!
!
!
!
!
!
!
!
!
!
!
!
!
!
!
!
!
!
!
!
!
!
!
!
!
!
!
!
!
!
!
!
!
!
!
!
!
!
!
!
!
!
!
!
!
!
!
!
!
!
!
!
!
!
!
!
!
!
!
!
!
!
!
!
!
!
!
!
!
!
!
!
!
!
!
!
!
!
!
!
!
!
!
!
!
!
!
!
!
!
!
!
!
!
!
!
!
!
!
!
!
!
!
!
!
!
!
!
!
!
!
!
!
!
!
!
!
!
!
!
!
!
!
!
!
!
!
!
!
!
!
!
!
!
!
!
!
!
!
!
!
!
!
!
!
!
!
!
!
!
!
!
!
!
!
!
!
!
!
!
!
!
!
!
!
!
!
!
!
!
!
!
!
!
!
!
!
!
!
!
!
!
!
!
!
1





































































































































































































;}
--- written
/more.c line 199: nested too deep
2 files, 1 faults

=== parentheses
# In the last parenthesis the shortest is `({})`, so that the fault is at the integer.
--- /more.c
f(){return 
(
(
(
(
(
(
(
(
(
(
(
(
(
(
(
(
(
(
(
(
(
(
(
(
(
(
(
(
(
(
(
(
(
(
(
(
(
(
(
(
(
(
(
(
(
(
(
(
(
(
(
(
(
(
(
(
(
(
(
(
(
(
(
(
(
(
(
(
(
(
(
(
(
(
(
(
(
(
(
(
(
(
(
(
(
(
(
(
(
(
(
(
(
(
(
(
(
(
(
(
(
(
(
(
(
(
(
(
(
(
(
(
(
(
(
(
(
(
(
(
(
(
(
(
(
(
(
(
(
(
(
(
(
(
(
(
(
(
(
(
(
(
(
(
(
(
(
(
(
(
(
(
(
(
(
(
(
(
(
(
(
(
(
(
(
(
(
(
(
(
(
(
(
(
(
(
(
(
(
(
(
(
(
(
(
(
(
(
(
(
(
(
(
(
(
(
(
(
1
)
)
)
)
)
)
)
)
)
)
)
)
)
)
)
)
)
)
)
)
)
)
)
)
)
)
)
)
)
)
)
)
)
)
)
)
)
)
)
)
)
)
)
)
)
)
)
)
)
)
)
)
)
)
)
)
)
)
)
)
)
)
)
)
)
)
)
)
)
)
)
)
)
)
)
)
)
)
)
)
)
)
)
)
)
)
)
)
)
)
)
)
)
)
)
)
)
)
)
)
)
)
)
)
)
)
)
)
)
)
)
)
)
)
)
)
)
)
)
)
)
)
)
)
)
)
)
)
)
)
)
)
)
)
)
)
)
)
)
)
)
)
)
)
)
)
)
)
)
)
)
)
)
)
)
)
)
)
)
)
)
)
)
)
)
)
)
)
)
)
)
)
)
)
)
)
)
)
)
)
)
)
)
)
)
)
)
)
)
)
)
)
)
)
)
)
)
)
;}
--- /most.c
f(){return 
(
(
(
(
(
(
(
(
(
(
(
(
(
(
(
(
(
(
(
(
(
(
(
(
(
(
(
(
(
(
(
(
(
(
(
(
(
(
(
(
(
(
(
(
(
(
(
(
(
(
(
(
(
(
(
(
(
(
(
(
(
(
(
(
(
(
(
(
(
(
(
(
(
(
(
(
(
(
(
(
(
(
(
(
(
(
(
(
(
(
(
(
(
(
(
(
(
(
(
(
(
(
(
(
(
(
(
(
(
(
(
(
(
(
(
(
(
(
(
(
(
(
(
(
(
(
(
(
(
(
(
(
(
(
(
(
(
(
(
(
(
(
(
(
(
(
(
(
(
(
(
(
(
(
(
(
(
(
(
(
(
(
(
(
(
(
(
(
(
(
(
(
(
(
(
(
(
(
(
(
(
(
(
(
(
(
(
(
(
(
(
(
(
(
(
(
(
1
)
)
)
)
)
)
)
)
)
)
)
)
)
)
)
)
)
)
)
)
)
)
)
)
)
)
)
)
)
)
)
)
)
)
)
)
)
)
)
)
)
)
)
)
)
)
)
)
)
)
)
)
)
)
)
)
)
)
)
)
)
)
)
)
)
)
)
)
)
)
)
)
)
)
)
)
)
)
)
)
)
)
)
)
)
)
)
)
)
)
)
)
)
)
)
)
)
)
)
)
)
)
)
)
)
)
)
)
)
)
)
)
)
)
)
)
)
)
)
)
)
)
)
)
)
)
)
)
)
)
)
)
)
)
)
)
)
)
)
)
)
)
)
)
)
)
)
)
)
)
)
)
)
)
)
)
)
)
)
)
)
)
)
)
)
)
)
)
)
)
)
)
)
)
)
)
)
)
)
)
)
)
)
)
)
)
)
)
)
)
)
)
)
)
)
)
)
;}
--- written
/more.c line 200: nested too deep
2 files, 1 faults

=== local
# The initialiser of a local is one deeper than its declaration.
--- /more.c
f(){int a=
-
-
-
-
-
-
-
-
-
-
-
-
-
-
-
-
-
-
-
-
-
-
-
-
-
-
-
-
-
-
-
-
-
-
-
-
-
-
-
-
-
-
-
-
-
-
-
-
-
-
-
-
-
-
-
-
-
-
-
-
-
-
-
-
-
-
-
-
-
-
-
-
-
-
-
-
-
-
-
-
-
-
-
-
-
-
-
-
-
-
-
-
-
-
-
-
-
-
-
-
-
-
-
-
-
-
-
-
-
-
-
-
-
-
-
-
-
-
-
-
-
-
-
-
-
-
-
-
-
-
-
-
-
-
-
-
-
-
-
-
-
-
-
-
-
-
-
-
-
-
-
-
-
-
-
-
-
-
-
-
-
-
-
-
-
-
-
-
-
-
-
-
-
-
-
-
-
-
-
-
-
-
-
-
-
-
-
-
-
-
-
-
-
-
-
-
-
-
1






































































































































































































;}
--- /most.c
f(){int a=
-
-
-
-
-
-
-
-
-
-
-
-
-
-
-
-
-
-
-
-
-
-
-
-
-
-
-
-
-
-
-
-
-
-
-
-
-
-
-
-
-
-
-
-
-
-
-
-
-
-
-
-
-
-
-
-
-
-
-
-
-
-
-
-
-
-
-
-
-
-
-
-
-
-
-
-
-
-
-
-
-
-
-
-
-
-
-
-
-
-
-
-
-
-
-
-
-
-
-
-
-
-
-
-
-
-
-
-
-
-
-
-
-
-
-
-
-
-
-
-
-
-
-
-
-
-
-
-
-
-
-
-
-
-
-
-
-
-
-
-
-
-
-
-
-
-
-
-
-
-
-
-
-
-
-
-
-
-
-
-
-
-
-
-
-
-
-
-
-
-
-
-
-
-
-
-
-
-
-
-
-
-
-
-
-
-
-
-
-
-
-
-
-
-
-
-
-
1





































































































































































































;}
--- written
/more.c line 199: nested too deep
2 files, 1 faults

=== global
# What a global is set to has level 1.
--- /more.c
int a=
~
~
~
~
~
~
~
~
~
~
~
~
~
~
~
~
~
~
~
~
~
~
~
~
~
~
~
~
~
~
~
~
~
~
~
~
~
~
~
~
~
~
~
~
~
~
~
~
~
~
~
~
~
~
~
~
~
~
~
~
~
~
~
~
~
~
~
~
~
~
~
~
~
~
~
~
~
~
~
~
~
~
~
~
~
~
~
~
~
~
~
~
~
~
~
~
~
~
~
~
~
~
~
~
~
~
~
~
~
~
~
~
~
~
~
~
~
~
~
~
~
~
~
~
~
~
~
~
~
~
~
~
~
~
~
~
~
~
~
~
~
~
~
~
~
~
~
~
~
~
~
~
~
~
~
~
~
~
~
~
~
~
~
~
~
~
~
~
~
~
~
~
~
~
~
~
~
~
~
~
~
~
~
~
~
~
~
~
~
~
~
~
~
~
~
~
~
~
~
~
1








































































































































































































;
--- /most.c
int a=
~
~
~
~
~
~
~
~
~
~
~
~
~
~
~
~
~
~
~
~
~
~
~
~
~
~
~
~
~
~
~
~
~
~
~
~
~
~
~
~
~
~
~
~
~
~
~
~
~
~
~
~
~
~
~
~
~
~
~
~
~
~
~
~
~
~
~
~
~
~
~
~
~
~
~
~
~
~
~
~
~
~
~
~
~
~
~
~
~
~
~
~
~
~
~
~
~
~
~
~
~
~
~
~
~
~
~
~
~
~
~
~
~
~
~
~
~
~
~
~
~
~
~
~
~
~
~
~
~
~
~
~
~
~
~
~
~
~
~
~
~
~
~
~
~
~
~
~
~
~
~
~
~
~
~
~
~
~
~
~
~
~
~
~
~
~
~
~
~
~
~
~
~
~
~
~
~
~
~
~
~
~
~
~
~
~
~
~
~
~
~
~
~
~
~
~
~
~
~
1







































































































































































































;
--- written
/more.c line 201: nested too deep
2 files, 1 faults

=== statements_and_an_expression
# Statements, and an expression in them.
--- /more.c
f(){if(1)while(2)return 
!
!
!
!
!
!
!
!
!
!
!
!
!
!
!
!
!
!
!
!
!
!
!
!
!
!
!
!
!
!
!
!
!
!
!
!
!
!
!
!
!
!
!
!
!
!
!
!
!
!
!
!
!
!
!
!
!
!
!
!
!
!
!
!
!
!
!
!
!
!
!
!
!
!
!
!
!
!
!
!
!
!
!
!
!
!
!
!
!
!
!
!
!
!
!
!
!
!
!
!
!
!
!
!
!
!
!
!
!
!
!
!
!
!
!
!
!
!
!
!
!
!
!
!
!
!
!
!
!
!
!
!
!
!
!
!
!
!
!
!
!
!
!
!
!
!
!
!
!
!
!
!
!
!
!
!
!
!
!
!
!
!
!
!
!
!
!
!
!
!
!
!
!
!
!
!
!
!
!
!
!
!
!
!
!
!
!
!
!
!
!
!
!
!
!
!
1




































































































































































































;}
--- /most.c
f(){if(1)while(2)return 
!
!
!
!
!
!
!
!
!
!
!
!
!
!
!
!
!
!
!
!
!
!
!
!
!
!
!
!
!
!
!
!
!
!
!
!
!
!
!
!
!
!
!
!
!
!
!
!
!
!
!
!
!
!
!
!
!
!
!
!
!
!
!
!
!
!
!
!
!
!
!
!
!
!
!
!
!
!
!
!
!
!
!
!
!
!
!
!
!
!
!
!
!
!
!
!
!
!
!
!
!
!
!
!
!
!
!
!
!
!
!
!
!
!
!
!
!
!
!
!
!
!
!
!
!
!
!
!
!
!
!
!
!
!
!
!
!
!
!
!
!
!
!
!
!
!
!
!
!
!
!
!
!
!
!
!
!
!
!
!
!
!
!
!
!
!
!
!
!
!
!
!
!
!
!
!
!
!
!
!
!
!
!
!
!
!
!
!
!
!
!
!
!
!
!
1



































































































































































































;}
--- written
/more.c line 197: nested too deep
2 files, 1 faults

=== statements_of_each_kind
# A block, a `for` and a `switch` in one another, and a return.
--- /more.c
f(){
{for(;;)switch(1){default:
{for(;;)switch(1){default:
{for(;;)switch(1){default:
{for(;;)switch(1){default:
{for(;;)switch(1){default:
{for(;;)switch(1){default:
{for(;;)switch(1){default:
{for(;;)switch(1){default:
{for(;;)switch(1){default:
{for(;;)switch(1){default:
{for(;;)switch(1){default:
{for(;;)switch(1){default:
{for(;;)switch(1){default:
{for(;;)switch(1){default:
{for(;;)switch(1){default:
{for(;;)switch(1){default:
{for(;;)switch(1){default:
{for(;;)switch(1){default:
{for(;;)switch(1){default:
{for(;;)switch(1){default:
{for(;;)switch(1){default:
{for(;;)switch(1){default:
{for(;;)switch(1){default:
{for(;;)switch(1){default:
{for(;;)switch(1){default:
{for(;;)switch(1){default:
{for(;;)switch(1){default:
{for(;;)switch(1){default:
{for(;;)switch(1){default:
{for(;;)switch(1){default:
{for(;;)switch(1){default:
{for(;;)switch(1){default:
{for(;;)switch(1){default:
{for(;;)switch(1){default:
{for(;;)switch(1){default:
{for(;;)switch(1){default:
{for(;;)switch(1){default:
{for(;;)switch(1){default:
{for(;;)switch(1){default:
{for(;;)switch(1){default:
{for(;;)switch(1){default:
{for(;;)switch(1){default:
{for(;;)switch(1){default:
{for(;;)switch(1){default:
{for(;;)switch(1){default:
{for(;;)switch(1){default:
{for(;;)switch(1){default:
{for(;;)switch(1){default:
{for(;;)switch(1){default:
{for(;;)switch(1){default:
{for(;;)switch(1){default:
{for(;;)switch(1){default:
{for(;;)switch(1){default:
{for(;;)switch(1){default:
{for(;;)switch(1){default:
{for(;;)switch(1){default:
{for(;;)switch(1){default:
{for(;;)switch(1){default:
{for(;;)switch(1){default:
{for(;;)switch(1){default:
{for(;;)switch(1){default:
{for(;;)switch(1){default:
{for(;;)switch(1){default:
{for(;;)switch(1){default:
{for(;;)switch(1){default:
{for(;;)switch(1){default:
return!1;
}}
}}
}}
}}
}}
}}
}}
}}
}}
}}
}}
}}
}}
}}
}}
}}
}}
}}
}}
}}
}}
}}
}}
}}
}}
}}
}}
}}
}}
}}
}}
}}
}}
}}
}}
}}
}}
}}
}}
}}
}}
}}
}}
}}
}}
}}
}}
}}
}}
}}
}}
}}
}}
}}
}}
}}
}}
}}
}}
}}
}}
}}
}}
}}
}}
}}
}
--- /most.c
f(){
{for(;;)switch(1){default:
{for(;;)switch(1){default:
{for(;;)switch(1){default:
{for(;;)switch(1){default:
{for(;;)switch(1){default:
{for(;;)switch(1){default:
{for(;;)switch(1){default:
{for(;;)switch(1){default:
{for(;;)switch(1){default:
{for(;;)switch(1){default:
{for(;;)switch(1){default:
{for(;;)switch(1){default:
{for(;;)switch(1){default:
{for(;;)switch(1){default:
{for(;;)switch(1){default:
{for(;;)switch(1){default:
{for(;;)switch(1){default:
{for(;;)switch(1){default:
{for(;;)switch(1){default:
{for(;;)switch(1){default:
{for(;;)switch(1){default:
{for(;;)switch(1){default:
{for(;;)switch(1){default:
{for(;;)switch(1){default:
{for(;;)switch(1){default:
{for(;;)switch(1){default:
{for(;;)switch(1){default:
{for(;;)switch(1){default:
{for(;;)switch(1){default:
{for(;;)switch(1){default:
{for(;;)switch(1){default:
{for(;;)switch(1){default:
{for(;;)switch(1){default:
{for(;;)switch(1){default:
{for(;;)switch(1){default:
{for(;;)switch(1){default:
{for(;;)switch(1){default:
{for(;;)switch(1){default:
{for(;;)switch(1){default:
{for(;;)switch(1){default:
{for(;;)switch(1){default:
{for(;;)switch(1){default:
{for(;;)switch(1){default:
{for(;;)switch(1){default:
{for(;;)switch(1){default:
{for(;;)switch(1){default:
{for(;;)switch(1){default:
{for(;;)switch(1){default:
{for(;;)switch(1){default:
{for(;;)switch(1){default:
{for(;;)switch(1){default:
{for(;;)switch(1){default:
{for(;;)switch(1){default:
{for(;;)switch(1){default:
{for(;;)switch(1){default:
{for(;;)switch(1){default:
{for(;;)switch(1){default:
{for(;;)switch(1){default:
{for(;;)switch(1){default:
{for(;;)switch(1){default:
{for(;;)switch(1){default:
{for(;;)switch(1){default:
{for(;;)switch(1){default:
{for(;;)switch(1){default:
{for(;;)switch(1){default:
return!1;
}}
}}
}}
}}
}}
}}
}}
}}
}}
}}
}}
}}
}}
}}
}}
}}
}}
}}
}}
}}
}}
}}
}}
}}
}}
}}
}}
}}
}}
}}
}}
}}
}}
}}
}}
}}
}}
}}
}}
}}
}}
}}
}}
}}
}}
}}
}}
}}
}}
}}
}}
}}
}}
}}
}}
}}
}}
}}
}}
}}
}}
}}
}}
}}
}}
}
--- written
/more.c line 68: nested too deep
2 files, 1 faults
