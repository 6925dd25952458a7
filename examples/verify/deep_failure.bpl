// A counter that is one too large after a hundred turns: the failure is two hundred letters deep, and a walk finds it.
// By verify: unsafe, within 4 rounds.
procedure main()
{
  var turns, sum: int;

  turns := 0;
  sum := 0;
  while (turns < 100) {
    turns := turns + 1;
    sum := sum + 2;
    if (turns == 99) {
      sum := sum + 1;
    }
  }
  assert sum == 200;
}
