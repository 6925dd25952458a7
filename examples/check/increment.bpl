// An assertion that follows from an assignment. By increment.proof: accepted.
procedure main() {
  var x: int;
  x := 1;
  assert x >= 1;
}
