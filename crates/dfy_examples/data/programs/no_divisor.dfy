newtype i8 = x: int | -128 <= x < 128

method Main() {
  var d: i8 := 0;
  print 7 / d;
}
