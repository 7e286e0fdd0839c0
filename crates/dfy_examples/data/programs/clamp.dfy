newtype i32 = x: int | -0x8000_0000 <= x < 0x8000_0000

method Clamp(x: i32) returns (r: i32)
  ensures 0 <= r <= 100
  ensures 0 <= x <= 100 ==> r == x
  ensures x < 0 ==> r == 0
  ensures 100 < x ==> r == 100
{
  if x < 0 { r := 0; } else if x > 100 { r := 100; } else { r := x; }
}

method Main() {
  var a: i32 := Clamp(-5);
  var b: i32 := Clamp(50);
  var c: i32 := Clamp(500);
  print a, " ", b, " ", c, "\n";
}
