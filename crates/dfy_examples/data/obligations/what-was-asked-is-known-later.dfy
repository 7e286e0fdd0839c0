method M(a: int, b: int) {
  assert a < b;
  assert a / (b - a) >= a / (b - a);
  assert a < b;
}
