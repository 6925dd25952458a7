var visitors: int;
procedure groups()
  modifies visitors;
  ensures old(visitors) <= visitors;
{
  var size: int;
  havoc size;
  if (size >= 1) {
    visitors := visitors + size;
    call groups();
  }
}
procedure main()
  modifies visitors;
{
  visitors := 0;
  while (*)
    invariant 0 <= visitors;
  {
    visitors := visitors + 1;
  }
  call groups();
  assert 0 <= visitors;
}
