method Square(x: int)
{
  assert x * x >= 0;
}
