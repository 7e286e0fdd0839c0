newtype i32 = x: int | -0x8000_0000 <= x < 0x8000_0000

method IsLeap(y: i32) returns (leap: bool)
  requires 1901 <= y <= 2099
  ensures leap <==> y % 4 == 0 && (y % 100 != 0 || y % 400 == 0)
{
  leap := y % 4 == 0 && y % 100 != 0;
}
