// The lift of before.bpl has got a key, which lets it pass to the ground at once.
// By verify: safe. By verify --reuse before.proof: safe, after 1 round.
const top: int;
axiom 1 <= top;
var floor: int;

procedure ride(up: bool)
  modifies floor;
{
  if (up && floor < top) {
    floor := floor + 1;
  } else if (!up && 0 < floor) {
    floor := floor - 1;
  }
}

procedure main()
  modifies floor;
{
  var up, key: bool;

  floor := 0;
  while (*) {
    havoc up, key;
    if (key) {
      floor := 0;
    } else {
      call ride(up);
    }
  }
  assert 0 <= floor;
  assert floor <= top;
}
