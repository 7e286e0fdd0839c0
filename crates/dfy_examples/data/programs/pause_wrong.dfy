newtype i8 = x: int | -128 <= x < 128

method Main() {
  var i: i8 := 0;
  while true
    invariant 0 <= i <= 10
    decreases 10 - i
  {
    if i == 10 { break; }
    assert i < 10;
  }
  assert i == 10;
  print i, "\n";
}
