method Sign(a: int, b: int) returns (r: int)
  requires b != 0
  ensures -1 <= r <= 1
{
  if a / b > 0 {
    r := 1;
  } else if a / b < 0 {
    r := -1;
  } else if a % b == 0 {
    r := 0;
  } else {
    assert false;
    r := 2;
  }
}
