method Two(a: int) returns (x: int, y: int)
  ensures x <= y
{
  if a < 0 { return a, 0; }
  return 0, a;
}

method Again(a: int) returns (x: int, y: int)
  ensures x <= y
{
  return Two(a);
}

method Natural(a: int) returns (n: nat, m: nat) {
  return Two(a);
}

method Below(a: int) returns (x: int, y: int)
  requires a >= 0
  ensures x >= 0
{
  if a > 0 {
    return Below(a - 1);
  }
  x, y := 0, 0;
}
