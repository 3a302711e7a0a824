# How many arguments each efun takes, which is looked at in each mode; whether an argument is of the right kind is no
# matter of types. The first line of a row calls the efun with the least number and with the greatest, plain and by
# `efun::`; where any number is allowed, with 20 more than the least. The lines below call it with one too few and with
# one too many, and each of them is a fault.
words: check
--- /t.c
void f() {
@@
}

=== this_object
# It takes no argument.
code: this_object(); efun::this_object();
code: this_object(0);
code: efun::this_object(0);
--- written
/t.c line 3: wrong number of arguments
/t.c line 4: wrong number of arguments
1 files, 2 faults

=== this_player
# It takes no argument.
code: this_player(); efun::this_player();
code: this_player(0);
code: efun::this_player(0);
--- written
/t.c line 3: wrong number of arguments
/t.c line 4: wrong number of arguments
1 files, 2 faults

=== this_interactive
# It takes no argument.
code: this_interactive(); efun::this_interactive();
code: this_interactive(0);
code: efun::this_interactive(0);
--- written
/t.c line 3: wrong number of arguments
/t.c line 4: wrong number of arguments
1 files, 2 faults

=== previous_object
# It takes none or one argument.
code: previous_object(); efun::previous_object(); previous_object(0); efun::previous_object(0);
code: previous_object(0, 0);
code: efun::previous_object(0, 0);
--- written
/t.c line 3: wrong number of arguments
/t.c line 4: wrong number of arguments
1 files, 2 faults

=== call_other
# It takes two arguments or more.
code: call_other(0, 0); efun::call_other(0, 0); call_other(0, 0, 0, 0, 0, 0, 0, 0, 0, 0, 0, 0, 0, 0, 0, 0, 0, 0, 0, 0, 0, 0); efun::call_other(0, 0, 0, 0, 0, 0, 0, 0, 0, 0, 0, 0, 0, 0, 0, 0, 0, 0, 0, 0, 0, 0);
code: call_other(0);
code: efun::call_other(0);
--- written
/t.c line 3: wrong number of arguments
/t.c line 4: wrong number of arguments
1 files, 2 faults

=== clone_object
# It takes one argument.
code: clone_object(0); efun::clone_object(0);
code: clone_object();
code: efun::clone_object();
code: clone_object(0, 0);
code: efun::clone_object(0, 0);
--- written
/t.c line 3: wrong number of arguments
/t.c line 4: wrong number of arguments
/t.c line 5: wrong number of arguments
/t.c line 6: wrong number of arguments
1 files, 4 faults

=== load_object
# It takes one argument.
code: load_object(0); efun::load_object(0);
code: load_object();
code: efun::load_object();
code: load_object(0, 0);
code: efun::load_object(0, 0);
--- written
/t.c line 3: wrong number of arguments
/t.c line 4: wrong number of arguments
/t.c line 5: wrong number of arguments
/t.c line 6: wrong number of arguments
1 files, 4 faults

=== find_object
# It takes one argument.
code: find_object(0); efun::find_object(0);
code: find_object();
code: efun::find_object();
code: find_object(0, 0);
code: efun::find_object(0, 0);
--- written
/t.c line 3: wrong number of arguments
/t.c line 4: wrong number of arguments
/t.c line 5: wrong number of arguments
/t.c line 6: wrong number of arguments
1 files, 4 faults

=== destruct
# It takes one argument.
code: destruct(0); efun::destruct(0);
code: destruct();
code: efun::destruct();
code: destruct(0, 0);
code: efun::destruct(0, 0);
--- written
/t.c line 3: wrong number of arguments
/t.c line 4: wrong number of arguments
/t.c line 5: wrong number of arguments
/t.c line 6: wrong number of arguments
1 files, 4 faults

=== object_name
# It takes none or one argument.
code: object_name(); efun::object_name(); object_name(0); efun::object_name(0);
code: object_name(0, 0);
code: efun::object_name(0, 0);
--- written
/t.c line 3: wrong number of arguments
/t.c line 4: wrong number of arguments
1 files, 2 faults

=== load_name
# It takes none or one argument.
code: load_name(); efun::load_name(); load_name(0); efun::load_name(0);
code: load_name(0, 0);
code: efun::load_name(0, 0);
--- written
/t.c line 3: wrong number of arguments
/t.c line 4: wrong number of arguments
1 files, 2 faults

=== program_name
# It takes none or one argument.
code: program_name(); efun::program_name(); program_name(0); efun::program_name(0);
code: program_name(0, 0);
code: efun::program_name(0, 0);
--- written
/t.c line 3: wrong number of arguments
/t.c line 4: wrong number of arguments
1 files, 2 faults

=== clonep
# It takes one argument.
code: clonep(0); efun::clonep(0);
code: clonep();
code: efun::clonep();
code: clonep(0, 0);
code: efun::clonep(0, 0);
--- written
/t.c line 3: wrong number of arguments
/t.c line 4: wrong number of arguments
/t.c line 5: wrong number of arguments
/t.c line 6: wrong number of arguments
1 files, 4 faults

=== objectp
# It takes one argument.
code: objectp(0); efun::objectp(0);
code: objectp();
code: efun::objectp();
code: objectp(0, 0);
code: efun::objectp(0, 0);
--- written
/t.c line 3: wrong number of arguments
/t.c line 4: wrong number of arguments
/t.c line 5: wrong number of arguments
/t.c line 6: wrong number of arguments
1 files, 4 faults

=== intp
# It takes one argument.
code: intp(0); efun::intp(0);
code: intp();
code: efun::intp();
code: intp(0, 0);
code: efun::intp(0, 0);
--- written
/t.c line 3: wrong number of arguments
/t.c line 4: wrong number of arguments
/t.c line 5: wrong number of arguments
/t.c line 6: wrong number of arguments
1 files, 4 faults

=== stringp
# It takes one argument.
code: stringp(0); efun::stringp(0);
code: stringp();
code: efun::stringp();
code: stringp(0, 0);
code: efun::stringp(0, 0);
--- written
/t.c line 3: wrong number of arguments
/t.c line 4: wrong number of arguments
/t.c line 5: wrong number of arguments
/t.c line 6: wrong number of arguments
1 files, 4 faults

=== pointerp
# It takes one argument.
code: pointerp(0); efun::pointerp(0);
code: pointerp();
code: efun::pointerp();
code: pointerp(0, 0);
code: efun::pointerp(0, 0);
--- written
/t.c line 3: wrong number of arguments
/t.c line 4: wrong number of arguments
/t.c line 5: wrong number of arguments
/t.c line 6: wrong number of arguments
1 files, 4 faults

=== mappingp
# It takes one argument.
code: mappingp(0); efun::mappingp(0);
code: mappingp();
code: efun::mappingp();
code: mappingp(0, 0);
code: efun::mappingp(0, 0);
--- written
/t.c line 3: wrong number of arguments
/t.c line 4: wrong number of arguments
/t.c line 5: wrong number of arguments
/t.c line 6: wrong number of arguments
1 files, 4 faults

=== living
# It takes one argument.
code: living(0); efun::living(0);
code: living();
code: efun::living();
code: living(0, 0);
code: efun::living(0, 0);
--- written
/t.c line 3: wrong number of arguments
/t.c line 4: wrong number of arguments
/t.c line 5: wrong number of arguments
/t.c line 6: wrong number of arguments
1 files, 4 faults

=== interactive
# It takes none or one argument.
code: interactive(); efun::interactive(); interactive(0); efun::interactive(0);
code: interactive(0, 0);
code: efun::interactive(0, 0);
--- written
/t.c line 3: wrong number of arguments
/t.c line 4: wrong number of arguments
1 files, 2 faults

=== function_exists
# It takes one or two arguments.
code: function_exists(0); efun::function_exists(0); function_exists(0, 0); efun::function_exists(0, 0);
code: function_exists();
code: efun::function_exists();
code: function_exists(0, 0, 0);
code: efun::function_exists(0, 0, 0);
--- written
/t.c line 3: wrong number of arguments
/t.c line 4: wrong number of arguments
/t.c line 5: wrong number of arguments
/t.c line 6: wrong number of arguments
1 files, 4 faults

=== enable_commands
# It takes no argument.
code: enable_commands(); efun::enable_commands();
code: enable_commands(0);
code: efun::enable_commands(0);
--- written
/t.c line 3: wrong number of arguments
/t.c line 4: wrong number of arguments
1 files, 2 faults

=== shadow
# It takes one argument.
code: shadow(0); efun::shadow(0);
code: shadow();
code: efun::shadow();
code: shadow(0, 0);
code: efun::shadow(0, 0);
--- written
/t.c line 3: wrong number of arguments
/t.c line 4: wrong number of arguments
/t.c line 5: wrong number of arguments
/t.c line 6: wrong number of arguments
1 files, 4 faults

=== query_shadowing
# It takes one argument.
code: query_shadowing(0); efun::query_shadowing(0);
code: query_shadowing();
code: efun::query_shadowing();
code: query_shadowing(0, 0);
code: efun::query_shadowing(0, 0);
--- written
/t.c line 3: wrong number of arguments
/t.c line 4: wrong number of arguments
/t.c line 5: wrong number of arguments
/t.c line 6: wrong number of arguments
1 files, 4 faults

=== unshadow
# It takes no argument.
code: unshadow(); efun::unshadow();
code: unshadow(0);
code: efun::unshadow(0);
--- written
/t.c line 3: wrong number of arguments
/t.c line 4: wrong number of arguments
1 files, 2 faults

=== environment
# It takes none or one argument.
code: environment(); efun::environment(); environment(0); efun::environment(0);
code: environment(0, 0);
code: efun::environment(0, 0);
--- written
/t.c line 3: wrong number of arguments
/t.c line 4: wrong number of arguments
1 files, 2 faults

=== all_inventory
# It takes none or one argument.
code: all_inventory(); efun::all_inventory(); all_inventory(0); efun::all_inventory(0);
code: all_inventory(0, 0);
code: efun::all_inventory(0, 0);
--- written
/t.c line 3: wrong number of arguments
/t.c line 4: wrong number of arguments
1 files, 2 faults

=== first_inventory
# It takes none or one argument.
code: first_inventory(); efun::first_inventory(); first_inventory(0); efun::first_inventory(0);
code: first_inventory(0, 0);
code: efun::first_inventory(0, 0);
--- written
/t.c line 3: wrong number of arguments
/t.c line 4: wrong number of arguments
1 files, 2 faults

=== next_inventory
# It takes none or one argument.
code: next_inventory(); efun::next_inventory(); next_inventory(0); efun::next_inventory(0);
code: next_inventory(0, 0);
code: efun::next_inventory(0, 0);
--- written
/t.c line 3: wrong number of arguments
/t.c line 4: wrong number of arguments
1 files, 2 faults

=== present
# It takes one or two arguments.
code: present(0); efun::present(0); present(0, 0); efun::present(0, 0);
code: present();
code: efun::present();
code: present(0, 0, 0);
code: efun::present(0, 0, 0);
--- written
/t.c line 3: wrong number of arguments
/t.c line 4: wrong number of arguments
/t.c line 5: wrong number of arguments
/t.c line 6: wrong number of arguments
1 files, 4 faults

=== move_object
# It takes two arguments.
code: move_object(0, 0); efun::move_object(0, 0);
code: move_object(0);
code: efun::move_object(0);
code: move_object(0, 0, 0);
code: efun::move_object(0, 0, 0);
--- written
/t.c line 3: wrong number of arguments
/t.c line 4: wrong number of arguments
/t.c line 5: wrong number of arguments
/t.c line 6: wrong number of arguments
1 files, 4 faults

=== add_action
# It takes two or three arguments.
code: add_action(0, 0); efun::add_action(0, 0); add_action(0, 0, 0); efun::add_action(0, 0, 0);
code: add_action(0);
code: efun::add_action(0);
code: add_action(0, 0, 0, 0);
code: efun::add_action(0, 0, 0, 0);
--- written
/t.c line 3: wrong number of arguments
/t.c line 4: wrong number of arguments
/t.c line 5: wrong number of arguments
/t.c line 6: wrong number of arguments
1 files, 4 faults

=== command
# It takes one argument.
code: command(0); efun::command(0);
code: command();
code: efun::command();
code: command(0, 0);
code: efun::command(0, 0);
--- written
/t.c line 3: wrong number of arguments
/t.c line 4: wrong number of arguments
/t.c line 5: wrong number of arguments
/t.c line 6: wrong number of arguments
1 files, 4 faults

=== query_verb
# It takes no argument.
code: query_verb(); efun::query_verb();
code: query_verb(0);
code: efun::query_verb(0);
--- written
/t.c line 3: wrong number of arguments
/t.c line 4: wrong number of arguments
1 files, 2 faults

=== notify_fail
# It takes one argument.
code: notify_fail(0); efun::notify_fail(0);
code: notify_fail();
code: efun::notify_fail();
code: notify_fail(0, 0);
code: efun::notify_fail(0, 0);
--- written
/t.c line 3: wrong number of arguments
/t.c line 4: wrong number of arguments
/t.c line 5: wrong number of arguments
/t.c line 6: wrong number of arguments
1 files, 4 faults

=== input_to
# It takes one argument or more.
code: input_to(0); efun::input_to(0); input_to(0, 0, 0, 0, 0, 0, 0, 0, 0, 0, 0, 0, 0, 0, 0, 0, 0, 0, 0, 0, 0); efun::input_to(0, 0, 0, 0, 0, 0, 0, 0, 0, 0, 0, 0, 0, 0, 0, 0, 0, 0, 0, 0, 0);
code: input_to();
code: efun::input_to();
--- written
/t.c line 3: wrong number of arguments
/t.c line 4: wrong number of arguments
1 files, 2 faults

=== write
# It takes one argument.
code: write(0); efun::write(0);
code: write();
code: efun::write();
code: write(0, 0);
code: efun::write(0, 0);
--- written
/t.c line 3: wrong number of arguments
/t.c line 4: wrong number of arguments
/t.c line 5: wrong number of arguments
/t.c line 6: wrong number of arguments
1 files, 4 faults

=== tell_object
# It takes two arguments.
code: tell_object(0, 0); efun::tell_object(0, 0);
code: tell_object(0);
code: efun::tell_object(0);
code: tell_object(0, 0, 0);
code: efun::tell_object(0, 0, 0);
--- written
/t.c line 3: wrong number of arguments
/t.c line 4: wrong number of arguments
/t.c line 5: wrong number of arguments
/t.c line 6: wrong number of arguments
1 files, 4 faults

=== tell_room
# It takes two arguments.
code: tell_room(0, 0); efun::tell_room(0, 0);
code: tell_room(0);
code: efun::tell_room(0);
code: tell_room(0, 0, 0);
code: efun::tell_room(0, 0, 0);
--- written
/t.c line 3: wrong number of arguments
/t.c line 4: wrong number of arguments
/t.c line 5: wrong number of arguments
/t.c line 6: wrong number of arguments
1 files, 4 faults

=== say
# It takes one argument.
code: say(0); efun::say(0);
code: say();
code: efun::say();
code: say(0, 0);
code: efun::say(0, 0);
--- written
/t.c line 3: wrong number of arguments
/t.c line 4: wrong number of arguments
/t.c line 5: wrong number of arguments
/t.c line 6: wrong number of arguments
1 files, 4 faults

=== printf
# It takes one argument or more.
code: printf(0); efun::printf(0); printf(0, 0, 0, 0, 0, 0, 0, 0, 0, 0, 0, 0, 0, 0, 0, 0, 0, 0, 0, 0, 0); efun::printf(0, 0, 0, 0, 0, 0, 0, 0, 0, 0, 0, 0, 0, 0, 0, 0, 0, 0, 0, 0, 0);
code: printf();
code: efun::printf();
--- written
/t.c line 3: wrong number of arguments
/t.c line 4: wrong number of arguments
1 files, 2 faults

=== users
# It takes no argument.
code: users(); efun::users();
code: users(0);
code: efun::users(0);
--- written
/t.c line 3: wrong number of arguments
/t.c line 4: wrong number of arguments
1 files, 2 faults

=== exec
# It takes two arguments.
code: exec(0, 0); efun::exec(0, 0);
code: exec(0);
code: efun::exec(0);
code: exec(0, 0, 0);
code: efun::exec(0, 0, 0);
--- written
/t.c line 3: wrong number of arguments
/t.c line 4: wrong number of arguments
/t.c line 5: wrong number of arguments
/t.c line 6: wrong number of arguments
1 files, 4 faults

=== remove_interactive
# It takes one argument.
code: remove_interactive(0); efun::remove_interactive(0);
code: remove_interactive();
code: efun::remove_interactive();
code: remove_interactive(0, 0);
code: efun::remove_interactive(0, 0);
--- written
/t.c line 3: wrong number of arguments
/t.c line 4: wrong number of arguments
/t.c line 5: wrong number of arguments
/t.c line 6: wrong number of arguments
1 files, 4 faults

=== time
# It takes no argument.
code: time(); efun::time();
code: time(0);
code: efun::time(0);
--- written
/t.c line 3: wrong number of arguments
/t.c line 4: wrong number of arguments
1 files, 2 faults

=== set_heart_beat
# It takes one argument.
code: set_heart_beat(0); efun::set_heart_beat(0);
code: set_heart_beat();
code: efun::set_heart_beat();
code: set_heart_beat(0, 0);
code: efun::set_heart_beat(0, 0);
--- written
/t.c line 3: wrong number of arguments
/t.c line 4: wrong number of arguments
/t.c line 5: wrong number of arguments
/t.c line 6: wrong number of arguments
1 files, 4 faults

=== call_out
# It takes two arguments or more.
code: call_out(0, 0); efun::call_out(0, 0); call_out(0, 0, 0, 0, 0, 0, 0, 0, 0, 0, 0, 0, 0, 0, 0, 0, 0, 0, 0, 0, 0, 0); efun::call_out(0, 0, 0, 0, 0, 0, 0, 0, 0, 0, 0, 0, 0, 0, 0, 0, 0, 0, 0, 0, 0, 0);
code: call_out(0);
code: efun::call_out(0);
--- written
/t.c line 3: wrong number of arguments
/t.c line 4: wrong number of arguments
1 files, 2 faults

=== remove_call_out
# It takes one argument.
code: remove_call_out(0); efun::remove_call_out(0);
code: remove_call_out();
code: efun::remove_call_out();
code: remove_call_out(0, 0);
code: efun::remove_call_out(0, 0);
--- written
/t.c line 3: wrong number of arguments
/t.c line 4: wrong number of arguments
/t.c line 5: wrong number of arguments
/t.c line 6: wrong number of arguments
1 files, 4 faults

=== find_call_out
# It takes one argument.
code: find_call_out(0); efun::find_call_out(0);
code: find_call_out();
code: efun::find_call_out();
code: find_call_out(0, 0);
code: efun::find_call_out(0, 0);
--- written
/t.c line 3: wrong number of arguments
/t.c line 4: wrong number of arguments
/t.c line 5: wrong number of arguments
/t.c line 6: wrong number of arguments
1 files, 4 faults

=== random
# It takes one argument.
code: random(0); efun::random(0);
code: random();
code: efun::random();
code: random(0, 0);
code: efun::random(0, 0);
--- written
/t.c line 3: wrong number of arguments
/t.c line 4: wrong number of arguments
/t.c line 5: wrong number of arguments
/t.c line 6: wrong number of arguments
1 files, 4 faults

=== throw
# It takes one argument.
code: throw(0); efun::throw(0);
code: throw();
code: efun::throw();
code: throw(0, 0);
code: efun::throw(0, 0);
--- written
/t.c line 3: wrong number of arguments
/t.c line 4: wrong number of arguments
/t.c line 5: wrong number of arguments
/t.c line 6: wrong number of arguments
1 files, 4 faults

=== raise_error
# It takes one argument.
code: raise_error(0); efun::raise_error(0);
code: raise_error();
code: efun::raise_error();
code: raise_error(0, 0);
code: efun::raise_error(0, 0);
--- written
/t.c line 3: wrong number of arguments
/t.c line 4: wrong number of arguments
/t.c line 5: wrong number of arguments
/t.c line 6: wrong number of arguments
1 files, 4 faults

=== strlen
# It takes one argument.
code: strlen(0); efun::strlen(0);
code: strlen();
code: efun::strlen();
code: strlen(0, 0);
code: efun::strlen(0, 0);
--- written
/t.c line 3: wrong number of arguments
/t.c line 4: wrong number of arguments
/t.c line 5: wrong number of arguments
/t.c line 6: wrong number of arguments
1 files, 4 faults

=== explode
# It takes two arguments.
code: explode(0, 0); efun::explode(0, 0);
code: explode(0);
code: efun::explode(0);
code: explode(0, 0, 0);
code: efun::explode(0, 0, 0);
--- written
/t.c line 3: wrong number of arguments
/t.c line 4: wrong number of arguments
/t.c line 5: wrong number of arguments
/t.c line 6: wrong number of arguments
1 files, 4 faults

=== implode
# It takes two arguments.
code: implode(0, 0); efun::implode(0, 0);
code: implode(0);
code: efun::implode(0);
code: implode(0, 0, 0);
code: efun::implode(0, 0, 0);
--- written
/t.c line 3: wrong number of arguments
/t.c line 4: wrong number of arguments
/t.c line 5: wrong number of arguments
/t.c line 6: wrong number of arguments
1 files, 4 faults

=== lower_case
# It takes one argument.
code: lower_case(0); efun::lower_case(0);
code: lower_case();
code: efun::lower_case();
code: lower_case(0, 0);
code: efun::lower_case(0, 0);
--- written
/t.c line 3: wrong number of arguments
/t.c line 4: wrong number of arguments
/t.c line 5: wrong number of arguments
/t.c line 6: wrong number of arguments
1 files, 4 faults

=== upper_case
# It takes one argument.
code: upper_case(0); efun::upper_case(0);
code: upper_case();
code: efun::upper_case();
code: upper_case(0, 0);
code: efun::upper_case(0, 0);
--- written
/t.c line 3: wrong number of arguments
/t.c line 4: wrong number of arguments
/t.c line 5: wrong number of arguments
/t.c line 6: wrong number of arguments
1 files, 4 faults

=== capitalize
# It takes one argument.
code: capitalize(0); efun::capitalize(0);
code: capitalize();
code: efun::capitalize();
code: capitalize(0, 0);
code: efun::capitalize(0, 0);
--- written
/t.c line 3: wrong number of arguments
/t.c line 4: wrong number of arguments
/t.c line 5: wrong number of arguments
/t.c line 6: wrong number of arguments
1 files, 4 faults

=== strstr
# It takes two or three arguments.
code: strstr(0, 0); efun::strstr(0, 0); strstr(0, 0, 0); efun::strstr(0, 0, 0);
code: strstr(0);
code: efun::strstr(0);
code: strstr(0, 0, 0, 0);
code: efun::strstr(0, 0, 0, 0);
--- written
/t.c line 3: wrong number of arguments
/t.c line 4: wrong number of arguments
/t.c line 5: wrong number of arguments
/t.c line 6: wrong number of arguments
1 files, 4 faults

=== trim
# It takes one argument.
code: trim(0); efun::trim(0);
code: trim();
code: efun::trim();
code: trim(0, 0);
code: efun::trim(0, 0);
--- written
/t.c line 3: wrong number of arguments
/t.c line 4: wrong number of arguments
/t.c line 5: wrong number of arguments
/t.c line 6: wrong number of arguments
1 files, 4 faults

=== sprintf
# It takes one argument or more.
code: sprintf(0); efun::sprintf(0); sprintf(0, 0, 0, 0, 0, 0, 0, 0, 0, 0, 0, 0, 0, 0, 0, 0, 0, 0, 0, 0, 0); efun::sprintf(0, 0, 0, 0, 0, 0, 0, 0, 0, 0, 0, 0, 0, 0, 0, 0, 0, 0, 0, 0, 0);
code: sprintf();
code: efun::sprintf();
--- written
/t.c line 3: wrong number of arguments
/t.c line 4: wrong number of arguments
1 files, 2 faults

=== to_int
# It takes one argument.
code: to_int(0); efun::to_int(0);
code: to_int();
code: efun::to_int();
code: to_int(0, 0);
code: efun::to_int(0, 0);
--- written
/t.c line 3: wrong number of arguments
/t.c line 4: wrong number of arguments
/t.c line 5: wrong number of arguments
/t.c line 6: wrong number of arguments
1 files, 4 faults

=== to_string
# It takes one argument.
code: to_string(0); efun::to_string(0);
code: to_string();
code: efun::to_string();
code: to_string(0, 0);
code: efun::to_string(0, 0);
--- written
/t.c line 3: wrong number of arguments
/t.c line 4: wrong number of arguments
/t.c line 5: wrong number of arguments
/t.c line 6: wrong number of arguments
1 files, 4 faults

=== sizeof
# It takes one argument.
code: sizeof(0); efun::sizeof(0);
code: sizeof();
code: efun::sizeof();
code: sizeof(0, 0);
code: efun::sizeof(0, 0);
--- written
/t.c line 3: wrong number of arguments
/t.c line 4: wrong number of arguments
/t.c line 5: wrong number of arguments
/t.c line 6: wrong number of arguments
1 files, 4 faults

=== allocate
# It takes one argument.
code: allocate(0); efun::allocate(0);
code: allocate();
code: efun::allocate();
code: allocate(0, 0);
code: efun::allocate(0, 0);
--- written
/t.c line 3: wrong number of arguments
/t.c line 4: wrong number of arguments
/t.c line 5: wrong number of arguments
/t.c line 6: wrong number of arguments
1 files, 4 faults

=== member
# It takes two arguments.
code: member(0, 0); efun::member(0, 0);
code: member(0);
code: efun::member(0);
code: member(0, 0, 0);
code: efun::member(0, 0, 0);
--- written
/t.c line 3: wrong number of arguments
/t.c line 4: wrong number of arguments
/t.c line 5: wrong number of arguments
/t.c line 6: wrong number of arguments
1 files, 4 faults

=== copy
# It takes one argument.
code: copy(0); efun::copy(0);
code: copy();
code: efun::copy();
code: copy(0, 0);
code: efun::copy(0, 0);
--- written
/t.c line 3: wrong number of arguments
/t.c line 4: wrong number of arguments
/t.c line 5: wrong number of arguments
/t.c line 6: wrong number of arguments
1 files, 4 faults

=== filter
# It takes two arguments or more.
code: filter(0, 0); efun::filter(0, 0); filter(0, 0, 0, 0, 0, 0, 0, 0, 0, 0, 0, 0, 0, 0, 0, 0, 0, 0, 0, 0, 0, 0); efun::filter(0, 0, 0, 0, 0, 0, 0, 0, 0, 0, 0, 0, 0, 0, 0, 0, 0, 0, 0, 0, 0, 0);
code: filter(0);
code: efun::filter(0);
--- written
/t.c line 3: wrong number of arguments
/t.c line 4: wrong number of arguments
1 files, 2 faults

=== map
# It takes two arguments or more.
code: map(0, 0); efun::map(0, 0); map(0, 0, 0, 0, 0, 0, 0, 0, 0, 0, 0, 0, 0, 0, 0, 0, 0, 0, 0, 0, 0, 0); efun::map(0, 0, 0, 0, 0, 0, 0, 0, 0, 0, 0, 0, 0, 0, 0, 0, 0, 0, 0, 0, 0, 0);
code: map(0);
code: efun::map(0);
--- written
/t.c line 3: wrong number of arguments
/t.c line 4: wrong number of arguments
1 files, 2 faults

=== m_indices
# It takes one argument.
code: m_indices(0); efun::m_indices(0);
code: m_indices();
code: efun::m_indices();
code: m_indices(0, 0);
code: efun::m_indices(0, 0);
--- written
/t.c line 3: wrong number of arguments
/t.c line 4: wrong number of arguments
/t.c line 5: wrong number of arguments
/t.c line 6: wrong number of arguments
1 files, 4 faults

=== m_values
# It takes one argument.
code: m_values(0); efun::m_values(0);
code: m_values();
code: efun::m_values();
code: m_values(0, 0);
code: efun::m_values(0, 0);
--- written
/t.c line 3: wrong number of arguments
/t.c line 4: wrong number of arguments
/t.c line 5: wrong number of arguments
/t.c line 6: wrong number of arguments
1 files, 4 faults

=== m_delete
# It takes two arguments.
code: m_delete(0, 0); efun::m_delete(0, 0);
code: m_delete(0);
code: efun::m_delete(0);
code: m_delete(0, 0, 0);
code: efun::m_delete(0, 0, 0);
--- written
/t.c line 3: wrong number of arguments
/t.c line 4: wrong number of arguments
/t.c line 5: wrong number of arguments
/t.c line 6: wrong number of arguments
1 files, 4 faults

=== mkmapping
# It takes two arguments.
code: mkmapping(0, 0); efun::mkmapping(0, 0);
code: mkmapping(0);
code: efun::mkmapping(0);
code: mkmapping(0, 0, 0);
code: efun::mkmapping(0, 0, 0);
--- written
/t.c line 3: wrong number of arguments
/t.c line 4: wrong number of arguments
/t.c line 5: wrong number of arguments
/t.c line 6: wrong number of arguments
1 files, 4 faults

=== min
# It takes two arguments.
code: min(0, 0); efun::min(0, 0);
code: min(0);
code: efun::min(0);
code: min(0, 0, 0);
code: efun::min(0, 0, 0);
--- written
/t.c line 3: wrong number of arguments
/t.c line 4: wrong number of arguments
/t.c line 5: wrong number of arguments
/t.c line 6: wrong number of arguments
1 files, 4 faults

=== max
# It takes two arguments.
code: max(0, 0); efun::max(0, 0);
code: max(0);
code: efun::max(0);
code: max(0, 0, 0);
code: efun::max(0, 0, 0);
--- written
/t.c line 3: wrong number of arguments
/t.c line 4: wrong number of arguments
/t.c line 5: wrong number of arguments
/t.c line 6: wrong number of arguments
1 files, 4 faults

=== abs
# It takes one argument.
code: abs(0); efun::abs(0);
code: abs();
code: efun::abs();
code: abs(0, 0);
code: efun::abs(0, 0);
--- written
/t.c line 3: wrong number of arguments
/t.c line 4: wrong number of arguments
/t.c line 5: wrong number of arguments
/t.c line 6: wrong number of arguments
1 files, 4 faults

=== read_file
# It takes one argument.
code: read_file(0); efun::read_file(0);
code: read_file();
code: efun::read_file();
code: read_file(0, 0);
code: efun::read_file(0, 0);
--- written
/t.c line 3: wrong number of arguments
/t.c line 4: wrong number of arguments
/t.c line 5: wrong number of arguments
/t.c line 6: wrong number of arguments
1 files, 4 faults

=== write_file
# It takes two arguments.
code: write_file(0, 0); efun::write_file(0, 0);
code: write_file(0);
code: efun::write_file(0);
code: write_file(0, 0, 0);
code: efun::write_file(0, 0, 0);
--- written
/t.c line 3: wrong number of arguments
/t.c line 4: wrong number of arguments
/t.c line 5: wrong number of arguments
/t.c line 6: wrong number of arguments
1 files, 4 faults

=== file_size
# It takes one argument.
code: file_size(0); efun::file_size(0);
code: file_size();
code: efun::file_size();
code: file_size(0, 0);
code: efun::file_size(0, 0);
--- written
/t.c line 3: wrong number of arguments
/t.c line 4: wrong number of arguments
/t.c line 5: wrong number of arguments
/t.c line 6: wrong number of arguments
1 files, 4 faults

=== rm
# It takes one argument.
code: rm(0); efun::rm(0);
code: rm();
code: efun::rm();
code: rm(0, 0);
code: efun::rm(0, 0);
--- written
/t.c line 3: wrong number of arguments
/t.c line 4: wrong number of arguments
/t.c line 5: wrong number of arguments
/t.c line 6: wrong number of arguments
1 files, 4 faults

=== save_object
# It takes one argument.
code: save_object(0); efun::save_object(0);
code: save_object();
code: efun::save_object();
code: save_object(0, 0);
code: efun::save_object(0, 0);
--- written
/t.c line 3: wrong number of arguments
/t.c line 4: wrong number of arguments
/t.c line 5: wrong number of arguments
/t.c line 6: wrong number of arguments
1 files, 4 faults

=== restore_object
# It takes one argument.
code: restore_object(0); efun::restore_object(0);
code: restore_object();
code: efun::restore_object();
code: restore_object(0, 0);
code: efun::restore_object(0, 0);
--- written
/t.c line 3: wrong number of arguments
/t.c line 4: wrong number of arguments
/t.c line 5: wrong number of arguments
/t.c line 6: wrong number of arguments
1 files, 4 faults

=== no_efun
# A name that is no efun, and two that begin like one.
code: efun::strlens(0);
code: efun::strle(0);
code: strlen_(0);
--- written
/t.c line 2: unknown function
/t.c line 3: unknown function
/t.c line 4: unknown function
1 files, 3 faults
