# Sources that are no unit, with the line of the first token that cannot stand there, or of the last one where more is
# wanted. A row is the file /t.c.
words: check
--- /t.c
@@

=== type_alone
# A type and nothing.
code: int
--- written
/t.c line 1: unexpected token
1 files, 1 faults

=== open_variable
# A variable that does not end: the line is that of the last token.
code: int
code: a
code:
code:
--- written
/t.c line 2: unexpected token
1 files, 1 faults

=== semicolon
# Nothing stands before a semicolon.
code: ;
--- written
/t.c line 1: unexpected token
1 files, 1 faults

=== inherit_behind_a_variable
# A variable ends the inherits.
code: int a;
code: inherit
code: "b";
--- written
/t.c line 2: unexpected token
1 files, 1 faults

=== inherit_behind_a_function
# So does a function.
code: f() {}
code: inherit "b";
--- written
/t.c line 2: unexpected token
1 files, 1 faults

=== inherit_behind_both
# A prototype does not, a variable does.
code: f();
code: int a;
code: inherit "b";
--- written
/t.c line 3: unexpected token
1 files, 1 faults

=== inherit_of_a_name
# An inherit has a text.
code: inherit
code: a;
--- written
/t.c line 2: unexpected token
1 files, 1 faults

=== inherit_of_joined_texts
# And one of them: neighbouring texts are one.
code: inherit "a"
code: "b";
--- written
/ab.c line 0: no such file
1 files, 1 faults

=== private_inherit
# And no modifier.
code: private
code: inherit "a";
--- written
/t.c line 2: unexpected token
1 files, 1 faults

=== variable_without_a_type
# A variable has a type.
code: a
code: ;
--- written
/t.c line 2: unexpected token
1 files, 1 faults

=== variable_without_a_type_but_private
# A modifier is none.
code: private a
code: ;
--- written
/t.c line 2: unexpected token
1 files, 1 faults

=== stars_without_a_type
# The stars of a function stand behind its type.
code: *
code: a();
--- written
/t.c line 1: unexpected token
1 files, 1 faults

=== modifier_behind_a_type
# Modifiers stand before the type.
code: int
code: private a;
--- written
/t.c line 2: unexpected token
1 files, 1 faults

=== missing_variable
# A name stands behind a comma.
code: int a,
code: ;
--- written
/t.c line 2: unexpected token
1 files, 1 faults

=== missing_value
# A value stands behind `=`.
code: int a =
code: ;
--- written
/t.c line 2: unexpected token
1 files, 1 faults

=== two_values
# And one of them.
code: int a =
code: 1
code: 2;
--- written
/t.c line 3: unexpected token
1 files, 1 faults

=== function_behind_a_variable
# A function is the first of its names alone.
code: int a, b
code: (
--- written
/t.c line 2: unexpected token
1 files, 1 faults

=== missing_parameter
# A parameter has a name.
code: int f(
code: ,
--- written
/t.c line 2: unexpected token
1 files, 1 faults

=== missing_last_parameter
# Parameters do not end with a comma.
code: f(a,
code: )
--- written
/t.c line 2: unexpected token
1 files, 1 faults

=== parameter_without_a_name
# A type is no name.
code: f(int
code: )
--- written
/t.c line 2: unexpected token
1 files, 1 faults

=== parameter_without_a_name_but_stars
# Nor are its stars.
code: f(int *
code: ,
--- written
/t.c line 2: unexpected token
1 files, 1 faults

=== two_names
# One name for each parameter.
code: f(a
code: b)
--- written
/t.c line 2: unexpected token
1 files, 1 faults

=== stars_of_a_parameter
# The stars of a parameter stand behind its type.
code: f(* a
code: )
--- written
/t.c line 1: unexpected token
1 files, 1 faults

=== function_with_a_value
# A function has no value.
code: f()
code: = 1;
--- written
/t.c line 2: unexpected token
1 files, 1 faults

=== function_without_a_block
# A variable does not stand in place of a block.
code: f()
code: int a;
--- written
/t.c line 2: unexpected token
1 files, 1 faults

=== open_block
# A block that does not end.
code: f() {
code:
--- written
/t.c line 1: unexpected token
1 files, 1 faults

=== closed_block
# And one that ends twice.
code: f() { }
code: }
--- written
/t.c line 2: unexpected token
1 files, 1 faults

=== label
# A label stands in a `switch` alone.
code: f() {
code: case 1: ; }
--- written
/t.c line 2: unexpected token
1 files, 1 faults

=== label_in_a_block
# Not in a block in it.
code: f() { switch (a) { {
code: default: ; } } }
--- written
/t.c line 2: unexpected token
1 files, 1 faults

=== label_in_a_branch
# Nor in a branch.
code: f() { switch (a) { if (b)
code: case 1: ; } }
--- written
/t.c line 2: unexpected token
1 files, 1 faults

=== range_of_texts
# A range has two integers.
code: f() { switch (a) { case "a"
code: .. "b": ; } }
--- written
/t.c line 2: unexpected token
1 files, 1 faults

=== range_to_a_text
# Its last too.
code: f() { switch (a) { case 1 ..
code: "b": ; } }
--- written
/t.c line 2: unexpected token
1 files, 1 faults

=== negative_text
# A text has no sign.
code: f() { switch (a) { case -
code: "b": ; } }
--- written
/t.c line 2: unexpected token
1 files, 1 faults

=== break
# There has to be something to leave.
code: f() {
code: break; }
--- written
/t.c line 2: unexpected token
1 files, 1 faults

=== continue
# And a loop for a continue.
code: f() {
code: continue; }
--- written
/t.c line 2: unexpected token
1 files, 1 faults

=== continue_in_a_switch
# Which a `switch` is not.
code: f() { switch (a) { default:
code: continue; } }
--- written
/t.c line 2: unexpected token
1 files, 1 faults

=== break_behind_a_loop
# Behind a loop there is none.
code: f() { while (a) ;
code: break; }
--- written
/t.c line 2: unexpected token
1 files, 1 faults

=== else_behind_two
# An `else` goes with the statement right behind its `if`.
code: f() { if (a) ; ;
code: else ; }
--- written
/t.c line 2: unexpected token
1 files, 1 faults

=== else_without_a_statement
# Of which there is one.
code: f() { if (a)
code: else ; }
--- written
/t.c line 2: unexpected token
1 files, 1 faults

=== missing_branch
# A branch is a statement.
code: f() { if (a)
code: }
--- written
/t.c line 2: unexpected token
1 files, 1 faults

=== open_declaration
# A declaration that does not end.
code: f() { if (a)
code: int
code: b
code: }
--- written
/t.c line 4: unexpected token
1 files, 1 faults

=== three_of_a_foreach
# A `foreach` has two variables.
code: f() { foreach (a, b
code: , c : d) ; }
--- written
/t.c line 2: unexpected token
1 files, 1 faults

=== do_without_while
# A `do` has its `while`.
code: f() { do ;
code: ; }
--- written
/t.c line 2: unexpected token
1 files, 1 faults

=== return_of_a_word
# A word of the language is no value.
code: f() { return
code: while
--- written
/t.c line 2: unexpected token
1 files, 1 faults
