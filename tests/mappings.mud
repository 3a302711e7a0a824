# Mappings: made, copied, looked through and changed, also where keys end.
--- /obj/sword.c
--- /room/hall.c
--- /secure/master.c
// What an expression comes to, or its error; and the same where two objects end once something was set.
#define SHOW(e) error = catch(value = e); if (error) write(error); else printf("%O\n", value);
#define ENDED(set, e) gone = clone_object("/obj/sword"); lost = clone_object("/obj/sword"); set; destruct(gone); destruct(lost); SHOW(e)
mixed error, value, x, y, z;
object hall, sword, gone, lost;
object connect() { hall = load_object("/room/hall"); sword = clone_object("/obj/sword"); return this_object(); }
int logon() { @@ return 1; }
--- play
connect 1
end

=== made_of_keys_and_values
# Pairs up to the shorter array; the last of equal keys wins at the place of the first; an object that ended is the key 0.
code: SHOW(mkmapping(({ }), ({ 1 })))
code: SHOW(mkmapping(({ "a", "b" }), ({ 1 })))
code: SHOW(mkmapping(({ "a" }), ({ 1, 2 })))
code: SHOW(mkmapping(({ "a", "b", "a" }), ({ 1, 2, 3 })))
code: ENDED(x = ({ gone, "b", 0 }); y = ({ 1, lost, 3 }), mkmapping(x, y))
code: SHOW(mkmapping(({ "a", "a" }), ({ 1, 2, 3 })))
--- written
to 1: "([ ])\n"
      "([ \"a\": 1 ])\n"
      "([ \"a\": 1 ])\n"
      "([ \"a\": 3, \"b\": 2 ])\n"
      "([ 0: 3, \"b\": 0 ])\n"
      "([ \"a\": 2 ])\n"
end

=== keys_and_values
# In the order in which they came in; a pair whose key ended is not there.
code: SHOW(m_indices(([ ])))
code: SHOW(m_indices(([ "b": 1, "a": 2 ])))
code: ENDED(x = ([ "b": 1, gone: 2, 0: 3 ]), m_indices(x))
code: SHOW(m_values(([ ])))
code: ENDED(x = ([ "b": 1, gone: 2, 0: lost ]), m_values(x))
code: SHOW(m_indices(([ "a": 1, "b": 2 ])))
code: SHOW(m_values(([ "a": 1, "b": 2 ])))
--- written
to 1: "({ })\n"
      "({ \"b\", \"a\" })\n"
      "({ \"b\", 0 })\n"
      "({ })\n"
      "({ 1, 0 })\n"
      "({ \"a\", \"b\" })\n"
      "({ 1, 2 })\n"
end

=== is_a_key
# 1 or 0; no pair has a key that ended, but the key 0 may be there.
code: SHOW(member(([ ]), 0))
code: SHOW(member(([ "a": 0 ]), "a"))
code: ENDED(x = ([ gone: 1 ]); y = gone, member(x, y))
code: ENDED(x = ([ gone: 1 ]), member(x, 0))
code: ENDED(x = gone, member(([ 0: 1 ]), x))
code: SHOW(member(([ "a": 1, "b": 2 ]), "b"))
--- written
to 1: "0\n"
      "1\n"
      "0\n"
      "0\n"
      "1\n"
      "1\n"
end

=== sizes
# Pairs whose key ended do not count.
code: SHOW(sizeof(([ ])))
code: ENDED(x = ([ gone: 1, 2: gone ]), sizeof(x))
--- written
to 1: "0\n"
      "1\n"
end

=== dropped_keys
# The same mapping without the key, if it is there; a pair whose key ended is not there, and an object that ended is the key 0.
code: SHOW(m_delete(([ "a": 1, "b": 2 ]), "a"))
code: SHOW(m_delete(([ "a": 1, "b": 2 ]), "b"))
code: SHOW(m_delete(([ "a": 1, "b": 2 ]), "c"))
code: SHOW(m_delete(([ ]), 0))
code: ENDED(x = ([ gone: 1, 0: 2 ]); y = gone, m_delete(x, y))
code: ENDED(x = ([ gone: 1, "a": 2 ]), m_delete(x, 0))
--- written
to 1: "([ \"b\": 2 ])\n"
      "([ \"a\": 1 ])\n"
      "([ \"a\": 1, \"b\": 2 ])\n"
      "([ ])\n"
      "([ ])\n"
      "([ \"a\": 2 ])\n"
end

=== copies_as_read
# A copy has the pairs that are read.
code: SHOW(copy(([ ])))
code: ENDED(x = ([ gone: 1, "b": gone ]), copy(x))
code: ENDED(x = ([ gone: 1, 1: hall ]), copy(x))
--- written
to 1: "([ ])\n"
      "([ \"b\": 0 ])\n"
      "([ 1: /room/hall ])\n"
end

=== a_copy_is_another_mapping
# What is written to the one is not read from the other, in either direction.
code: x = ([ 0: 1, "a": 2 ]); y = copy(x); x[0] = 7; printf("%O %O\n", y, x);
code: y[0] = 8; printf("%O %O\n", x, y);
gives: "([ 0: 1, \"a\": 2 ]) ([ 0: 7, \"a\": 2 ])\n([ 0: 7, \"a\": 2 ]) ([ 0: 8, \"a\": 2 ])\n"

=== the_same_mapping_is_answered
# `m_delete` changes the mapping that it is given, and answers it.
code: x = ([ "a": 1, "b": 2 ]); y = m_delete(x, "a"); printf("%d %O\n", x == y, x);
gives: "1 ([ \"b\": 2 ])\n"

=== keys_that_end
# A pair is not there once its key ended; a key that ended is 0 as a place to write, and that pair stays. Writing again keeps the place.
code: gone = clone_object("/obj/sword"); lost = clone_object("/obj/sword");
code: x = ([ gone: 10, 3: 11, 4: 12, 3: 13 ]); printf("%d %d\n", sizeof(x), x[gone]);
code: destruct(gone); destruct(lost); printf("%O %d\n", x, sizeof(x));
code: x[lost] = 14; printf("%O %d %d %d\n", x, x[0], x[gone], sizeof(x));
code: m_delete(x, 3); printf("%O\n", x); m_delete(x, 3); printf("%O %d\n", x, x[gone]);
code: x[3] = 15; printf("%O\n", x);
--- written
to 1: "3 10\n"
      "([ 3: 13, 4: 12 ]) 2\n"
      "([ 3: 13, 4: 12, 0: 14 ]) 14 14 3\n"
      "([ 4: 12, 0: 14 ])\n"
      "([ 4: 12, 0: 14 ]) 14\n"
      "([ 4: 12, 0: 14, 3: 15 ])\n"
end

=== lengths_where_objects_end
# Only keys that ended make a mapping shorter, whether a key was written once or twice, and dropping one that ended does nothing.
code: gone = clone_object("/obj/sword"); lost = clone_object("/obj/sword"); z = clone_object("/obj/sword");
code: x = ([ 1: 10, 2: gone ]); y = ([ gone: 10, 3: 11, z: 12, gone: 13 ]); printf("%d %d\n", sizeof(x), sizeof(y));
code: x[lost] = 1; x[lost] = 1; printf("%d\n", sizeof(x));
code: destruct(gone); printf("%d %d\n", sizeof(x), sizeof(y));
code: destruct(lost); printf("%d\n", sizeof(x));
code: m_delete(y, gone); printf("%d ", sizeof(y)); m_delete(y, 3); printf("%d ", sizeof(y)); m_delete(y, z); printf("%d\n", sizeof(y));
gives: "2 3\n3\n3 2\n2\n2 1 0\n"

=== a_key_dropped_while_it_lives
# It is no longer counted, then or once it ended.
code: gone = clone_object("/obj/sword"); x = ([ 1: 10, 2: 3 ]); x[gone] = 1; printf("%d ", sizeof(x));
code: m_delete(x, gone); printf("%d ", sizeof(x)); destruct(gone); printf("%d\n", sizeof(x));
gives: "3 2 2\n"

=== a_full_mapping
# 10000 pairs that are read are allowed, so that one may come once a key ended, and no further one. A key that is there may be written.
code: int i; gone = clone_object("/obj/sword"); x = ([ ]); for (i = 0; i < 9999; i++) x[i] = 1; x[gone] = 2;
code: printf("%d ", sizeof(x)); write(catch(x[20000] = 3)); destruct(gone);
code: printf("%d ", sizeof(x)); x[20000] = 3; write(catch(x[20001] = 4)); x[7] = 5;
code: y = m_indices(x); printf("%d %d %d %d %d\n", sizeof(x), y[9999], x[20000], x[7], x[20001]);
gives: "10000 *Array too long\n9999 *Array too long\n10000 20000 3 5 0\n"

=== a_full_mapping_of_which_keys_end
# Each key that ended makes room for one pair.
code: int i; gone = clone_object("/obj/sword"); lost = clone_object("/obj/sword"); z = clone_object("/obj/sword");
code: x = ([ gone: 1 ]); for (i = 0; i < 9998; i++) x[i] = 1; x[lost] = 1; printf("%d ", sizeof(x));
code: destruct(gone); printf("%d ", sizeof(x)); x[z] = 1; printf("%d ", sizeof(x)); destruct(lost); printf("%d ", sizeof(x));
code: destruct(z); printf("%d ", sizeof(x)); x[20000] = 1; printf("%d ", sizeof(x)); x[20001] = 1; printf("%d ", sizeof(x));
code: write(catch(x[20002] = 1));
gives: "10000 9999 10000 9999 9998 9999 10000 *Array too long\n"

=== dropped_and_written_again
# Keys stand in the order in which they came in; one that was dropped and comes again stands last.
code: int i; x = ([ ]); for (i = 0; i < 1000; i++) x[i] = 1; for (i = 0; i < 300; i++) m_delete(x, i);
code: y = m_indices(x); printf("%d %d %d\n", y[0], y[699], sizeof(y));
code: for (i = 300; i < 900; i++) m_delete(x, i); y = m_indices(x); printf("%d %d %d\n", y[0], y[99], sizeof(y));
code: for (i = 100; i < 400; i++) x[i] = 2; for (i = 950; i < 960; i++) x[i] = 2;
code: y = m_indices(x); printf("%d %d %d %d %d\n", y[100], y[399], y[55], x[955], x[960]);
code: for (i = 920; i < 1000; i++) m_delete(x, i); x[930] = 2;
code: y = m_indices(x); printf("%d %d %d %d %d %d\n", y[19], y[20], y[320], sizeof(x), x[931], x[399]);
--- written
to 1: "300 999 700\n"
      "900 999 100\n"
      "100 399 955 2 1\n"
      "919 100 930 321 0 2\n"
end
