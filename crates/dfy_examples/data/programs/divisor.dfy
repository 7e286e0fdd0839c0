newtype i32 = x: int | -0x8000_0000 <= x < 0x8000_0000

// Euclid's algorithm by subtraction.
method Gcd(a: i32, b: i32) returns (g: i32)
  requires 0 < a && 0 < b
  ensures 1 <= g && g <= a && g <= b
{
  var x: i32, y: i32 := a, b;
  while x != y
    invariant 0 < x <= a && 0 < y <= b
    decreases x as int + y as int
  {
    if x > y { x := x - y; } else { y := y - x; }
  }
  g := x;
}

method Main() {
  var g: i32 := Gcd(48, 36);
  print g, "\n";
}
