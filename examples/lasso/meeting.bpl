// Two walkers go towards each other, one twice as fast as the other. By lasso: rank.
procedure main()
{
  var east, west: int;

  while (west < east) {
    west := west + 2;
    east := east - 1;
  }
}
