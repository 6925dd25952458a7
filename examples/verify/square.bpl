// A square is at least 0. But of a product the search knows nothing; an `assume square >= 0` behind the assignment would tell it.
// By verify: unknown product.
procedure main()
{
  var number, square: int;

  square := number * number;
  assert square >= 0;
}
