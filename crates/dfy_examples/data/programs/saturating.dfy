newtype i8 = x: int | -128 <= x < 128

method Add(a: i8, b: i8) returns (s: i8)
  ensures a as int + b as int > 127 ==> s == 127
  ensures a as int + b as int < -128 ==> s == -128
  ensures -128 <= a as int + b as int <= 127 ==> s as int == a as int + b as int
{
  if b > 0 && a > 127 - b { s := 127; }
  else if b < 0 && a < -128 - b { s := -128; }
  else { s := a + b; }
}

method Main() {
  var x: i8 := Add(100, 50);
  var y: i8 := Add(-100, -50);
  var z: i8 := Add(3, 4);
  print x, " ", y, " ", z, "\n";
}
