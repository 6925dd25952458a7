// Visitors are counted at the door, in a loop that nothing bounds, and then group by group, by recursion.
// By verify: safe.
var visitors: int;

procedure groups()
  modifies visitors;
{
  var size: int;

  havoc size;
  if (size >= 1) {
    visitors := visitors + size;
    call groups();
  }
}

procedure main()
  modifies visitors;
{
  visitors := 0;
  while (*) {
    visitors := visitors + 1;
  }
  call groups();
  assert 0 <= visitors;
}
