newtype i32 = x: int | -0x8000_0000 <= x < 0x8000_0000

method Clamp(x: i32) returns (r: i32)
  ensures 0 <= r <= 100
{
  if x < 0 { r := 0; } else if x > 101 { r := 100; } else { r := x; }
}
