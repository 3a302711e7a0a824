mudscript 1 0 0
file /obj/lamp.c 33
string color() { return "red"; }

file /obj/player.c 257
object lamp;

int logon() {
  lamp = clone_object("/obj/lamp");
  write(load_object("/room/hall")->long());
  write("Your lamp is " + lamp->color() + ".\n");
  write("The first lamp is " + "/secure/master"->first_lamp(lamp)->color() + ".\n");
  return 1;
}

file /room/hall.c 70
inherit "/std/room";

string name() { return "a hall with a clock"; }

file /secure/master.c 152
object first;

object connect() { return clone_object("/obj/player"); }

object first_lamp(object lamp) {
  if (!first) first = lamp;
  return first;
}

file /std/room.c 100
string name() { return "a bare room"; }

string long() { return "You stand in " + name() + ".\n"; }

start
connect 1
reload /obj/lamp.c 34
string color() { return "blue"; }

connect 2
line 1 4
look
end
