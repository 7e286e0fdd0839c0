method Factors(x: int, y: int, z: int)
{
  assert (x + y) * (y + z) * (z + x) * (x + 1) != 24;
}
