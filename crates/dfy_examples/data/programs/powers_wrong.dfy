newtype i32 = x: int | -0x8000_0000 <= x < 0x8000_0000

method Main() {
  var p: i32 := 1;
  while p < 1000
  {
    print p, " ";
    p := 2 * p;
  }
}
