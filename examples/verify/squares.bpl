// The first odd numbers add up to the square of their number, but here the sum begins at 1.
// By verify: unsafe.
procedure main()
{
  var side, area: int;

  side := 0;
  area := 1;
  while (side < 5) {
    area := area + 2 * side + 1;
    side := side + 1;
  }
  assert area == side * side;
}
