# A budget of which so much is left, and what a call does then: it is paid exactly, or not at all. A result that cannot be paid leaves what
# was done for it.
--- /player.c
int logon() { return 1; }
--- /0123456789abcdef0123456789abcdef.c
--- /secure/master.c
// A call with a budget of k. The beginning of the function costs 1, each look into the longest text 6254 with its turn of the loop, and its
// end 1; a turn of the other loop costs 2, its end 1, and `!` 1 where it is needed.
int budget, calls, done;
object player, me;
string t16, all, name;
int *n16;
mixed value;
object connect() {
  int k;
  me = this_object(); player = clone_object("/player"); t16 = "0123456789abcdef"; all = sprintf("%9999s", "");
  while (strlen(all) < 50000) all += all;
  all += all[0..99999 - strlen(all)];
  name = "/0123456789abcdef0123456789abcdef";
  n16 = ({ 0, 1, 2, 3, 4, 5, 6, 7, 8, 9, 10, 11, 12, 13, 14, 15 });
  foreach (k : "/budgets"->budgets()) { call_out("leave", 0, (11865 - k) / 2, (11865 - k) % 2, k); call_out("tell", 0); }
  return player;
}
void leave(int n, int odd, int k) {
  int i;
  budget = k; calls = 0; done = 0;
  for (i = 0; i < 158; i++) strstr(all, " ");
  while (n--) ;
  if (odd) !n;
  @@
  done = 1;
}
int f(int x) { calls++; return 1; }
void tell() { tell_object(player, budget + (done ? " paid" : " spent") + (calls ? " after " + calls : "") + "\n"); }
--- play
connect 1
tick 0
end

=== time
# Without a share.
code: value = time();
--- /budgets.c
int *budgets() { return ({ 1, 0 }); }
--- written
to 1: "1 paid\n"
log: "error: Too long evaluation. Execution aborted. [leave of /secure/master, object /secure/master]"
to 1: "0 spent\n"
end

=== letters
# 2 before, and 1 for the result.
code: value = lower_case(t16);
--- /budgets.c
int *budgets() { return ({ 10, 3, 2, 1, 0 }); }
--- written
to 1: "10 paid\n"
      "3 paid\n"
log: "error: Too long evaluation. Execution aborted. [leave of /secure/master, object /secure/master]"
to 1: "2 spent\n"
log: "error: Too long evaluation. Execution aborted. [leave of /secure/master, object /secure/master]"
to 1: "1 spent\n"
log: "error: Too long evaluation. Execution aborted. [leave of /secure/master, object /secure/master]"
to 1: "0 spent\n"
end

=== copies
# 2 before, and 1 for the result.
code: value = copy(n16);
--- /budgets.c
int *budgets() { return ({ 3, 2 }); }
--- written
to 1: "3 paid\n"
log: "error: Too long evaluation. Execution aborted. [leave of /secure/master, object /secure/master]"
to 1: "2 spent\n"
end

=== arrays_of_zeros
# 1 before, and 2 for the result.
code: value = allocate(32);
--- /budgets.c
int *budgets() { return ({ 3, 2 }); }
--- written
to 1: "3 paid\n"
log: "error: Too long evaluation. Execution aborted. [leave of /secure/master, object /secure/master]"
to 1: "2 spent\n"
end

=== mapped
# 2 before and 1 for the result; each of the sixteen calls costs 1 to begin, which is spent in the caller, and 1 to count.
code: value = map(n16, "f", me);
--- /budgets.c
int *budgets() { return ({ 35, 34, 33, 2, 1 }); }
--- written
to 1: "35 paid after 16\n"
log: "error: Too long evaluation. Execution aborted. [leave of /secure/master, object /secure/master]"
to 1: "34 spent after 16\n"
log: "error: Too long evaluation. Execution aborted. [f of /secure/master, object /secure/master]"
to 1: "33 spent after 15\n"
log: "error: Too long evaluation. Execution aborted. [leave of /secure/master, object /secure/master]"
to 1: "2 spent\n"
log: "error: Too long evaluation. Execution aborted. [leave of /secure/master, object /secure/master]"
to 1: "1 spent\n"
end

=== loaded
# 1 for the efun and 1000 for the load, of which nothing is done where it cannot be paid; then it is there, and costs 1.
code: value = load_object(name);
--- /budgets.c
int *budgets() { return ({ 0, 1000, 2, 1001, 1 }); }
--- written
log: "error: Too long evaluation. Execution aborted. [leave of /secure/master, object /secure/master]"
to 1: "0 spent\n"
log: "error: Too long evaluation. Execution aborted. [leave of /secure/master, object /secure/master]"
to 1: "1000 spent\n"
log: "error: Too long evaluation. Execution aborted. [leave of /secure/master, object /secure/master]"
to 1: "2 spent\n"
      "1001 paid\n"
      "1 paid\n"
end

=== called
# `call_other` of what is not loaded costs as much; the function that is missing costs nothing.
code: value = name->none(n16);
--- /budgets.c
int *budgets() { return ({ 0, 1000, 2, 1001, 1 }); }
--- written
log: "error: Too long evaluation. Execution aborted. [leave of /secure/master, object /secure/master]"
to 1: "0 spent\n"
log: "error: Too long evaluation. Execution aborted. [leave of /secure/master, object /secure/master]"
to 1: "1000 spent\n"
log: "error: Too long evaluation. Execution aborted. [leave of /secure/master, object /secure/master]"
to 1: "2 spent\n"
      "1001 paid\n"
      "1 paid\n"
end
