newtype i8 = x: int | -128 <= x < 128

method Main() {
  var i: i8 := 0;
  while i < 3
    invariant 0 <= i <= 3
  {
    var j: i8 := 0;
    while j <= i
      invariant 0 <= j <= i + 1
    {
      print "*";
      j := j + 1;
    }
    print "\n";
    i := i + 1;
  }
}
