newtype small = x: int | 0 <= x < 100

method Main() {
  Later?(5);
}

method Later?(s: small) {
  assert s >= 0;
}

newtype other = x: int | 1 <= x < 9 witness 3

method Last'(o: other, s: small) {
  Main();
  assert o > 0;
  Later?(s);
}
