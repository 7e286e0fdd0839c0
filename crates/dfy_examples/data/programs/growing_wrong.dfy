newtype i32 = x: int | -0x8000_0000 <= x < 0x8000_0000

method Squares(a: i32, b: i32)
  requires -1 <= a <= b && b == 0
  ensures a * a <= b * b
{
}
