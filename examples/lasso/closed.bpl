// The loop is never entered. By lasso: excluded.
procedure main()
{
  var x: int;

  assume x < 0;
  while (x > 0) {
    x := x - 1;
  }
}
