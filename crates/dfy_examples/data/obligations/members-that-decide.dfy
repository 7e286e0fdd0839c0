method And(a: int, b: int, c: int) returns (r: bool) {
  r := b != 0 && a / b != 0 && c % (a / b) == 0;
}

method Or(p: bool, b: int, c: int) returns (r: bool) {
  r := p || b == 0 || (c / b > 0 && !p);
}

method Not(b: bool, c: bool, n: int) returns (r: bool) {
  r := !(b && !c) || 1 / n == 1;
}
