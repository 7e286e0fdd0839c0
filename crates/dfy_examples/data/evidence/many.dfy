method Sums(x: int, y: int, z: int)
{
  assert (x + y) * (y + z) * (z + x) != 25;
}
