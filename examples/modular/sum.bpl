// The sum of the numbers up to n is at least n. A call of `sum` by itself means its contract, too, so the recursion takes one turn.
// By verify --modular: modular 2, and each part is safe.
procedure sum(n: int) returns (total: int)
  requires 0 <= n;
  ensures n <= total;
{
  if (n == 0) {
    total := 0;
  } else {
    call total := sum(n - 1);
    total := total + n;
  }
}

procedure main()
{
  var total: int;

  call total := sum(10);
  assert 10 <= total;
}
