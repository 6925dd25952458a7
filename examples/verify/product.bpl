// A product by recursion, of which only a bound is needed, and that needs to know that each part is at least 1.
// By verify: safe, within 50 rounds.
procedure product(part: int, times: int) returns (whole: int)
{
  var less: int;

  if (times <= 0) {
    whole := 0;
  } else {
    call less := product(part, times - 1);
    whole := less + part;
  }
}

procedure main()
{
  var part, times, whole: int;

  assume part >= 1;
  assume times >= 0;
  call whole := product(part, times);
  assert whole >= times;
}
