newtype i32 = x: int | -0x8000_0000 <= x < 0x8000_0000

method Fahrenheit(c: i32) returns (f: i32)
  requires -50 <= c <= -40
  ensures f != c
{
  f := 9 * c / 5 + 32;
}
