// A counter that each turn of the loop lowers. By lasso: rank.
// By countdown.ranking: accepted. By countdown.wrong: rejected 7 BadTriple.
procedure main()
{
  var x: int;

  while (x > 0) {
    x := x - 1;
  }
}
