// Ten wait on the left bank, and the ferry takes one at a time. By lasso: rank.
procedure main()
{
  var left, right: int;

  left := 10;
  right := 0;
  while (left > 0) {
    left := left - 1;
    right := right + 1;
  }
  assert right == 10;
}
