method And(a: int, b: int) returns (r: bool) {
  r := a / b > 0 && b != 0;
}

method Or(a: int, b: int) returns (r: bool) {
  r := a / b > 0 || b == 0;
}

method Implies(a: int, b: int) returns (r: bool) {
  r := a % b > 0 ==> b != 0;
}

method Explies(a: int, b: int) returns (r: bool) {
  r := b != 0 <== a / b > 0;
}

method Iff(a: int, b: int) returns (r: bool) {
  r := b != 0 <==> a / b > 0;
}

method Chain(a: int, b: int) returns (r: bool) {
  r := a < a / b < b;
}
