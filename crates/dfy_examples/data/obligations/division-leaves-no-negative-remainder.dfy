method Main() {
  assert -7 / 2 == -4;
  assert -7 % 2 == 1;
  assert -7 / -2 == 4;
  assert -7 % -2 == 1;
  assert 7 / -2 == -3;
  assert 7 / -2 == -4;
}
