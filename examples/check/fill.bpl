// A tank is filled one unit at a time, as often as anyone likes, and never past its brim.
// By fill.proof: accepted. By fill.wrong: rejected 11 BadTriple.
const brim: int;
axiom 0 <= brim;
var level: int;

procedure fill()
  modifies level;
{
  if (level < brim) {
    level := level + 1;
  }
}

procedure main()
  modifies level;
{
  level := 0;
  while (*) {
    call fill();
  }
  assert level <= brim;
}
