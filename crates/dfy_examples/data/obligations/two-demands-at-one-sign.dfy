newtype i32 = x: int | -0x8000_0000 <= x < 0x8000_0000

method Quotient(a: i32, b: i32) returns (q: i32)
  requires b != 0
{
  q := a / b;
}

method Remainder(a: i32, b: i32) returns (q: i32)
  requires b != 0
{
  q := a % b;
}
