// Each ticket has the number after the last one. The program is safe as a whole, and yet its parts do not suffice: the contract of `issue` does not
// say that `last` grows, so in the part of `main` it may have any value after the call.
// By verify: safe. By verify --modular: part main, unsafe. With `ensures last == old(last) + 1;` at `issue` each part is safe.
var last: int;

procedure issue()
  modifies last;
{
  last := last + 1;
}

procedure main()
  modifies last;
{
  last := 0;
  call issue();
  assert last == 1;
}
