newtype i32 = x: int | -0x8000_0000 <= x < 0x8000_0000

method ByTwoAndThree(n: i32)
  requires 0 < n < 12
  requires n % 2 == 0 && n % 3 == 0
  ensures n % 12 == 0
{
}
