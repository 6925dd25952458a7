var attempts: int;
procedure attempt() returns (done: bool)
  modifies attempts;
  ensures attempts <= old(attempts) + 1;
{
  havoc done;
  attempts := attempts + 1;
}
procedure main()
  modifies attempts;
{
  var done: bool;
  attempts := 0;
  again:
  assert attempts <= 2;
  call done := attempt();
  if (!done && attempts < 3) {
    goto again;
  }
  assert attempts <= 3;
}
