// A counter with a flag: `print` takes the whole language. The printed text has neither comments nor attributes,
// and printing it again gives it back.
const limit: int;
axiom 0 <= limit;
var {:tracked} count: int;
procedure {:inline 1} advance(up: bool) returns (done: bool)
  requires 0 <= count && count <= limit;
  modifies count;
  ensures 0 <= count && count <= limit;
  ensures done <==> count == limit;
{
  if (*) { goto skip; }
  if (up && count < limit) { count := count + 1; }
 skip:
  done := count == limit;
}
procedure main() modifies count; {
  var stop: bool;
  count, stop := 0, false;
  while (!stop)
    invariant 0 <= count && count <= limit;
  { call stop := advance(true); /* again */ }
  assert count >= 0 && (count == limit ==> stop);
}
