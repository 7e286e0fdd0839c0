method Cubes(x: int, y: int, z: int)
  requires 1 <= x && 1 <= y && 1 <= z
{
  assert x * x * x + y * y * y != z * z * z;
}
