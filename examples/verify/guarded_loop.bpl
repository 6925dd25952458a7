// Water runs into a tank as long as there is room for it: a loop whose own guard is the reason.
// By verify: safe, within 5 rounds.
procedure main()
{
  var level, room: int;

  level := 0;
  assume room >= 0;
  while (level < room) {
    level := level + 1;
  }
  assert level == room;
}
