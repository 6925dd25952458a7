// The loop goes on for ever. By lasso: unknown ranking.
procedure main()
{
  var x: int;

  while (x > 0) {
    x := x + 1;
  }
}
