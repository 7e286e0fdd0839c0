method Right(a: int, b: int, c: int) returns (r: bool) {
  r := a / b > 0 ==> b / c > 0 ==> c / a > 0;
}

method Left(a: int, b: int, c: int) returns (r: bool) {
  r := a / b > 0 <== b / c > 0 <== c / a > 0;
}
