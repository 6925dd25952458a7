const brim: int;
axiom 0 <= brim;
var level: int;
procedure fill()
  modifies level;
  requires level <= brim;
  ensures level <= brim;
{
  if (level < brim) {
    level := level + 1;
  }
}
procedure main()
  modifies level;
{
  level := 0;
  while (*)
    invariant level <= brim;
  {
    call fill();
  }
  assert level <= brim;
}
