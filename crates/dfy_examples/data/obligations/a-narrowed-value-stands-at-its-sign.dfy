method M(a: int, b: nat, c: bool) returns (n: nat) {
  n := a + b - 1;
  n := -a;
  n := a / 2 * 3;
  n := a as int;
  n := 7;
  n := a;
  n := (a + b);
  if c { n := a + b; } else { n := b; }
}
