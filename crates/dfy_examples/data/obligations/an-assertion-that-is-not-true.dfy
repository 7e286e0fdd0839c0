newtype i32 = x: int | -0x8000_0000 <= x < 0x8000_0000

method Main() {
  var x: i32 := 5;
  assert x == 6;
  if x < 7 { print x + 1, "\n"; }
}
