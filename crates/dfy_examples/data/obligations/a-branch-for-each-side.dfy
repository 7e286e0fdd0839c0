newtype i32 = x: int | -0x8000_0000 <= x < 0x8000_0000

method Abs(x: i32) returns (y: i32)
  ensures y >= 0
{
  if x < 0 { y := -x; } else { y := x; }
}
