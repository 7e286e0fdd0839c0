newtype i8 = x: int | -128 <= x < 128

method Main() {
  var x: i8 := 0;
  x, x := 1, 2;
}
