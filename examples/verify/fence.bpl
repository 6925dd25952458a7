// A field that grows by a row and a column as often as anyone likes. Its area is a product, of which the proof needs nothing: it is about the fence.
// By verify: safe, within 10 rounds.
var area, fence: int;

procedure measure(length: int, width: int)
  modifies area, fence;
  ensures fence == 2 * (length + width);
{
  area := length * width;
  fence := 2 * (length + width);
}

procedure main()
  modifies area, fence;
{
  var length, width: int;

  length, width := 1, 1;
  call measure(length, width);
  while (area < 1000) {
    length, width := length + 1, width + 1;
    call measure(length, width);
  }
  assert fence >= 4;
}
