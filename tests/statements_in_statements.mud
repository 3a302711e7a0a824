# Each form of a statement in each other one, and each statement without one in each of them: the file of all of these
# is loaded, and each of its functions is called with 0 and an array of nothing, where every loop ends. The master
# writes how many there are.
--- /t.c
@@
--- /secure/master.c
object connect() { return this_object(); }
int logon() {
  object t = load_object("/t");
  int i = 1;
  while (function_exists("f" + i, t)) { call_other(t, "f" + i, 0, ({ })); i++; }
  write("called " + (i - 1) + "\n");
  return 1;
}
--- play
connect 1
end

=== in_a_block
# In `{ int i = n; ..i = n; }`.
code: void f1(int n, mixed v) { { int i = n; { int i = n; v = ({ }); i = n; }i = n; } }
code: void f2(int n, mixed v) { { int i = n; if (n) v = ({ }); i = n; } }
code: void f3(int n, mixed v) { { int i = n; if (n) ; else v = ({ }); i = n; } }
code: void f4(int n, mixed v) { { int i = n; if (n) { v = ({ }); } else n = 0;i = n; } }
code: void f5(int n, mixed v) { { int i = n; switch (n) { case 1: v = ({ }); case 2 .. 4: n = 1; break; default: return; }i = n; } }
code: void f6(int n, mixed v) { { int i = n; while (n) v = ({ }); i = n; } }
code: void f7(int n, mixed v) { { int i = n; do v = ({ }); while (n);i = n; } }
code: void f8(int n, mixed v) { { int i = n; for (int i = 0; i < n; i++) v = ({ }); i = n; } }
code: void f9(int n, mixed v) { { int i = n; foreach (int x : v) v = ({ }); i = n; } }
code: void f10(int n, mixed v) { { int i = n; foreach (mixed k, mixed x : v) { if (x) continue; v = ({ }); break; }i = n; } }
code: void f11(int n, mixed v) { { int i = n; ; i = n; } }
code: void f12(int n, mixed v) { { int i = n; n = 0; i = n; } }
code: void f13(int n, mixed v) { { int i = n; int k = n; i = n; } }
code: void f14(int n, mixed v) { { int i = n; return; i = n; } }
code: void f15(int n, mixed v) { { int i = n; { } i = n; } }
gives: "called 15\n"

=== in_an_if
# In `if (n) ..`.
code: void f1(int n, mixed v) { if (n) { int i = n; v = ({ }); i = n; } }
code: void f2(int n, mixed v) { if (n) if (n) v = ({ });  }
code: void f3(int n, mixed v) { if (n) if (n) ; else v = ({ });  }
code: void f4(int n, mixed v) { if (n) if (n) { v = ({ }); } else n = 0; }
code: void f5(int n, mixed v) { if (n) switch (n) { case 1: v = ({ }); case 2 .. 4: n = 1; break; default: return; } }
code: void f6(int n, mixed v) { if (n) while (n) v = ({ });  }
code: void f7(int n, mixed v) { if (n) do v = ({ }); while (n); }
code: void f8(int n, mixed v) { if (n) for (int i = 0; i < n; i++) v = ({ });  }
code: void f9(int n, mixed v) { if (n) foreach (int x : v) v = ({ });  }
code: void f10(int n, mixed v) { if (n) foreach (mixed k, mixed x : v) { if (x) continue; v = ({ }); break; } }
code: void f11(int n, mixed v) { if (n) ;  }
code: void f12(int n, mixed v) { if (n) n = 0;  }
code: void f13(int n, mixed v) { if (n) int k = n;  }
code: void f14(int n, mixed v) { if (n) return;  }
code: void f15(int n, mixed v) { if (n) { }  }
gives: "called 15\n"

=== in_an_else
# In `if (n) ; else ..`.
code: void f1(int n, mixed v) { if (n) ; else { int i = n; v = ({ }); i = n; } }
code: void f2(int n, mixed v) { if (n) ; else if (n) v = ({ });  }
code: void f3(int n, mixed v) { if (n) ; else if (n) ; else v = ({ });  }
code: void f4(int n, mixed v) { if (n) ; else if (n) { v = ({ }); } else n = 0; }
code: void f5(int n, mixed v) { if (n) ; else switch (n) { case 1: v = ({ }); case 2 .. 4: n = 1; break; default: return; } }
code: void f6(int n, mixed v) { if (n) ; else while (n) v = ({ });  }
code: void f7(int n, mixed v) { if (n) ; else do v = ({ }); while (n); }
code: void f8(int n, mixed v) { if (n) ; else for (int i = 0; i < n; i++) v = ({ });  }
code: void f9(int n, mixed v) { if (n) ; else foreach (int x : v) v = ({ });  }
code: void f10(int n, mixed v) { if (n) ; else foreach (mixed k, mixed x : v) { if (x) continue; v = ({ }); break; } }
code: void f11(int n, mixed v) { if (n) ; else ;  }
code: void f12(int n, mixed v) { if (n) ; else n = 0;  }
code: void f13(int n, mixed v) { if (n) ; else int k = n;  }
code: void f14(int n, mixed v) { if (n) ; else return;  }
code: void f15(int n, mixed v) { if (n) ; else { }  }
gives: "called 15\n"

=== in_an_if_and_else
# In `if (n) { ..} else n = 0;`.
code: void f1(int n, mixed v) { if (n) { { int i = n; v = ({ }); i = n; }} else n = 0; }
code: void f2(int n, mixed v) { if (n) { if (n) v = ({ }); } else n = 0; }
code: void f3(int n, mixed v) { if (n) { if (n) ; else v = ({ }); } else n = 0; }
code: void f4(int n, mixed v) { if (n) { if (n) { v = ({ }); } else n = 0;} else n = 0; }
code: void f5(int n, mixed v) { if (n) { switch (n) { case 1: v = ({ }); case 2 .. 4: n = 1; break; default: return; }} else n = 0; }
code: void f6(int n, mixed v) { if (n) { while (n) v = ({ }); } else n = 0; }
code: void f7(int n, mixed v) { if (n) { do v = ({ }); while (n);} else n = 0; }
code: void f8(int n, mixed v) { if (n) { for (int i = 0; i < n; i++) v = ({ }); } else n = 0; }
code: void f9(int n, mixed v) { if (n) { foreach (int x : v) v = ({ }); } else n = 0; }
code: void f10(int n, mixed v) { if (n) { foreach (mixed k, mixed x : v) { if (x) continue; v = ({ }); break; }} else n = 0; }
code: void f11(int n, mixed v) { if (n) { ; } else n = 0; }
code: void f12(int n, mixed v) { if (n) { n = 0; } else n = 0; }
code: void f13(int n, mixed v) { if (n) { int k = n; } else n = 0; }
code: void f14(int n, mixed v) { if (n) { return; } else n = 0; }
code: void f15(int n, mixed v) { if (n) { { } } else n = 0; }
gives: "called 15\n"

=== in_a_switch
# In `switch (n) { case 1: ..case 2 .. 4: n = 1; break; default: return; }`.
code: void f1(int n, mixed v) { switch (n) { case 1: { int i = n; v = ({ }); i = n; }case 2 .. 4: n = 1; break; default: return; } }
code: void f2(int n, mixed v) { switch (n) { case 1: if (n) v = ({ }); case 2 .. 4: n = 1; break; default: return; } }
code: void f3(int n, mixed v) { switch (n) { case 1: if (n) ; else v = ({ }); case 2 .. 4: n = 1; break; default: return; } }
code: void f4(int n, mixed v) { switch (n) { case 1: if (n) { v = ({ }); } else n = 0;case 2 .. 4: n = 1; break; default: return; } }
code: void f5(int n, mixed v) { switch (n) { case 1: switch (n) { case 1: v = ({ }); case 2 .. 4: n = 1; break; default: return; }case 2 .. 4: n = 1; break; default: return; } }
code: void f6(int n, mixed v) { switch (n) { case 1: while (n) v = ({ }); case 2 .. 4: n = 1; break; default: return; } }
code: void f7(int n, mixed v) { switch (n) { case 1: do v = ({ }); while (n);case 2 .. 4: n = 1; break; default: return; } }
code: void f8(int n, mixed v) { switch (n) { case 1: for (int i = 0; i < n; i++) v = ({ }); case 2 .. 4: n = 1; break; default: return; } }
code: void f9(int n, mixed v) { switch (n) { case 1: foreach (int x : v) v = ({ }); case 2 .. 4: n = 1; break; default: return; } }
code: void f10(int n, mixed v) { switch (n) { case 1: foreach (mixed k, mixed x : v) { if (x) continue; v = ({ }); break; }case 2 .. 4: n = 1; break; default: return; } }
code: void f11(int n, mixed v) { switch (n) { case 1: ; case 2 .. 4: n = 1; break; default: return; } }
code: void f12(int n, mixed v) { switch (n) { case 1: n = 0; case 2 .. 4: n = 1; break; default: return; } }
code: void f13(int n, mixed v) { switch (n) { case 1: int k = n; case 2 .. 4: n = 1; break; default: return; } }
code: void f14(int n, mixed v) { switch (n) { case 1: return; case 2 .. 4: n = 1; break; default: return; } }
code: void f15(int n, mixed v) { switch (n) { case 1: { } case 2 .. 4: n = 1; break; default: return; } }
gives: "called 15\n"

=== in_a_while
# In `while (n) ..`.
code: void f1(int n, mixed v) { while (n) { int i = n; v = ({ }); i = n; } }
code: void f2(int n, mixed v) { while (n) if (n) v = ({ });  }
code: void f3(int n, mixed v) { while (n) if (n) ; else v = ({ });  }
code: void f4(int n, mixed v) { while (n) if (n) { v = ({ }); } else n = 0; }
code: void f5(int n, mixed v) { while (n) switch (n) { case 1: v = ({ }); case 2 .. 4: n = 1; break; default: return; } }
code: void f6(int n, mixed v) { while (n) while (n) v = ({ });  }
code: void f7(int n, mixed v) { while (n) do v = ({ }); while (n); }
code: void f8(int n, mixed v) { while (n) for (int i = 0; i < n; i++) v = ({ });  }
code: void f9(int n, mixed v) { while (n) foreach (int x : v) v = ({ });  }
code: void f10(int n, mixed v) { while (n) foreach (mixed k, mixed x : v) { if (x) continue; v = ({ }); break; } }
code: void f11(int n, mixed v) { while (n) ;  }
code: void f12(int n, mixed v) { while (n) n = 0;  }
code: void f13(int n, mixed v) { while (n) int k = n;  }
code: void f14(int n, mixed v) { while (n) return;  }
code: void f15(int n, mixed v) { while (n) { }  }
code: void f16(int n, mixed v) { while (n) break;  }
code: void f17(int n, mixed v) { while (n) continue;  }
gives: "called 17\n"

=== in_a_do
# In `do ..while (n);`.
code: void f1(int n, mixed v) { do { int i = n; v = ({ }); i = n; }while (n); }
code: void f2(int n, mixed v) { do if (n) v = ({ }); while (n); }
code: void f3(int n, mixed v) { do if (n) ; else v = ({ }); while (n); }
code: void f4(int n, mixed v) { do if (n) { v = ({ }); } else n = 0;while (n); }
code: void f5(int n, mixed v) { do switch (n) { case 1: v = ({ }); case 2 .. 4: n = 1; break; default: return; }while (n); }
code: void f6(int n, mixed v) { do while (n) v = ({ }); while (n); }
code: void f7(int n, mixed v) { do do v = ({ }); while (n);while (n); }
code: void f8(int n, mixed v) { do for (int i = 0; i < n; i++) v = ({ }); while (n); }
code: void f9(int n, mixed v) { do foreach (int x : v) v = ({ }); while (n); }
code: void f10(int n, mixed v) { do foreach (mixed k, mixed x : v) { if (x) continue; v = ({ }); break; }while (n); }
code: void f11(int n, mixed v) { do ; while (n); }
code: void f12(int n, mixed v) { do n = 0; while (n); }
code: void f13(int n, mixed v) { do int k = n; while (n); }
code: void f14(int n, mixed v) { do return; while (n); }
code: void f15(int n, mixed v) { do { } while (n); }
code: void f16(int n, mixed v) { do break; while (n); }
code: void f17(int n, mixed v) { do continue; while (n); }
gives: "called 17\n"

=== in_a_for
# In `for (int i = 0; i < n; i++) ..`.
code: void f1(int n, mixed v) { for (int i = 0; i < n; i++) { int i = n; v = ({ }); i = n; } }
code: void f2(int n, mixed v) { for (int i = 0; i < n; i++) if (n) v = ({ });  }
code: void f3(int n, mixed v) { for (int i = 0; i < n; i++) if (n) ; else v = ({ });  }
code: void f4(int n, mixed v) { for (int i = 0; i < n; i++) if (n) { v = ({ }); } else n = 0; }
code: void f5(int n, mixed v) { for (int i = 0; i < n; i++) switch (n) { case 1: v = ({ }); case 2 .. 4: n = 1; break; default: return; } }
code: void f6(int n, mixed v) { for (int i = 0; i < n; i++) while (n) v = ({ });  }
code: void f7(int n, mixed v) { for (int i = 0; i < n; i++) do v = ({ }); while (n); }
code: void f8(int n, mixed v) { for (int i = 0; i < n; i++) for (int i = 0; i < n; i++) v = ({ });  }
code: void f9(int n, mixed v) { for (int i = 0; i < n; i++) foreach (int x : v) v = ({ });  }
code: void f10(int n, mixed v) { for (int i = 0; i < n; i++) foreach (mixed k, mixed x : v) { if (x) continue; v = ({ }); break; } }
code: void f11(int n, mixed v) { for (int i = 0; i < n; i++) ;  }
code: void f12(int n, mixed v) { for (int i = 0; i < n; i++) n = 0;  }
code: void f13(int n, mixed v) { for (int i = 0; i < n; i++) int k = n;  }
code: void f14(int n, mixed v) { for (int i = 0; i < n; i++) return;  }
code: void f15(int n, mixed v) { for (int i = 0; i < n; i++) { }  }
code: void f16(int n, mixed v) { for (int i = 0; i < n; i++) break;  }
code: void f17(int n, mixed v) { for (int i = 0; i < n; i++) continue;  }
gives: "called 17\n"

=== in_a_foreach
# In `foreach (int x : v) ..`.
code: void f1(int n, mixed v) { foreach (int x : v) { int i = n; v = ({ }); i = n; } }
code: void f2(int n, mixed v) { foreach (int x : v) if (n) v = ({ });  }
code: void f3(int n, mixed v) { foreach (int x : v) if (n) ; else v = ({ });  }
code: void f4(int n, mixed v) { foreach (int x : v) if (n) { v = ({ }); } else n = 0; }
code: void f5(int n, mixed v) { foreach (int x : v) switch (n) { case 1: v = ({ }); case 2 .. 4: n = 1; break; default: return; } }
code: void f6(int n, mixed v) { foreach (int x : v) while (n) v = ({ });  }
code: void f7(int n, mixed v) { foreach (int x : v) do v = ({ }); while (n); }
code: void f8(int n, mixed v) { foreach (int x : v) for (int i = 0; i < n; i++) v = ({ });  }
code: void f9(int n, mixed v) { foreach (int x : v) foreach (int x : v) v = ({ });  }
code: void f10(int n, mixed v) { foreach (int x : v) foreach (mixed k, mixed x : v) { if (x) continue; v = ({ }); break; } }
code: void f11(int n, mixed v) { foreach (int x : v) ;  }
code: void f12(int n, mixed v) { foreach (int x : v) n = 0;  }
code: void f13(int n, mixed v) { foreach (int x : v) int k = n;  }
code: void f14(int n, mixed v) { foreach (int x : v) return;  }
code: void f15(int n, mixed v) { foreach (int x : v) { }  }
code: void f16(int n, mixed v) { foreach (int x : v) break;  }
code: void f17(int n, mixed v) { foreach (int x : v) continue;  }
gives: "called 17\n"

=== in_a_foreach_of_two
# In `foreach (mixed k, mixed x : v) { if (x) continue; ..break; }`.
code: void f1(int n, mixed v) { foreach (mixed k, mixed x : v) { if (x) continue; { int i = n; v = ({ }); i = n; }break; } }
code: void f2(int n, mixed v) { foreach (mixed k, mixed x : v) { if (x) continue; if (n) v = ({ }); break; } }
code: void f3(int n, mixed v) { foreach (mixed k, mixed x : v) { if (x) continue; if (n) ; else v = ({ }); break; } }
code: void f4(int n, mixed v) { foreach (mixed k, mixed x : v) { if (x) continue; if (n) { v = ({ }); } else n = 0;break; } }
code: void f5(int n, mixed v) { foreach (mixed k, mixed x : v) { if (x) continue; switch (n) { case 1: v = ({ }); case 2 .. 4: n = 1; break; default: return; }break; } }
code: void f6(int n, mixed v) { foreach (mixed k, mixed x : v) { if (x) continue; while (n) v = ({ }); break; } }
code: void f7(int n, mixed v) { foreach (mixed k, mixed x : v) { if (x) continue; do v = ({ }); while (n);break; } }
code: void f8(int n, mixed v) { foreach (mixed k, mixed x : v) { if (x) continue; for (int i = 0; i < n; i++) v = ({ }); break; } }
code: void f9(int n, mixed v) { foreach (mixed k, mixed x : v) { if (x) continue; foreach (int x : v) v = ({ }); break; } }
code: void f10(int n, mixed v) { foreach (mixed k, mixed x : v) { if (x) continue; foreach (mixed k, mixed x : v) { if (x) continue; v = ({ }); break; }break; } }
code: void f11(int n, mixed v) { foreach (mixed k, mixed x : v) { if (x) continue; ; break; } }
code: void f12(int n, mixed v) { foreach (mixed k, mixed x : v) { if (x) continue; n = 0; break; } }
code: void f13(int n, mixed v) { foreach (mixed k, mixed x : v) { if (x) continue; int k = n; break; } }
code: void f14(int n, mixed v) { foreach (mixed k, mixed x : v) { if (x) continue; return; break; } }
code: void f15(int n, mixed v) { foreach (mixed k, mixed x : v) { if (x) continue; { } break; } }
code: void f16(int n, mixed v) { foreach (mixed k, mixed x : v) { if (x) continue; break; break; } }
code: void f17(int n, mixed v) { foreach (mixed k, mixed x : v) { if (x) continue; continue; break; } }
gives: "called 17\n"
