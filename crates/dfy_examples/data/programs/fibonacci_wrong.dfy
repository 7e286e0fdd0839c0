newtype i32 = x: int | -0x8000_0000 <= x < 0x8000_0000

method Main() {
  var a: i32, b: i32 := 0, 1;
  while b < 1000
    invariant 0 <= a <= b
    invariant 1 <= b < 2000
  {
    print a, " ";
    a, b := b, a + b;
  }
}
