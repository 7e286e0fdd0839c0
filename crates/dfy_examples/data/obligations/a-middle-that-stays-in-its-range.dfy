newtype i32 = x: int | -0x8000_0000 <= x < 0x8000_0000

method Mid(lo: i32, hi: i32) returns (m: i32)
  requires 0 <= lo <= hi
  ensures lo <= m <= hi
{
  m := lo + (hi - lo) / 2;
}
