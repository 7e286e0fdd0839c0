method M(a: int, b: int) returns (r: bool) {
  r := 0 < a <= b < a / b <= b % a;
}

method N(a: int, b: int) returns (r: bool) {
  r := a / b == b / a == a % b;
}
