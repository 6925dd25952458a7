// A job is tried again after each failure, three times at most; how an attempt ends, nobody knows.
// By explain: what is known at the label, and of each attempt.
var attempts: int;

procedure attempt() returns (done: bool)
  modifies attempts;
{
  havoc done;
  attempts := attempts + 1;
}

procedure main()
  modifies attempts;
{
  var done: bool;

  attempts := 0;
again:
  call done := attempt();
  if (!done && attempts < 3) {
    goto again;
  }
  assert attempts <= 3;
}
