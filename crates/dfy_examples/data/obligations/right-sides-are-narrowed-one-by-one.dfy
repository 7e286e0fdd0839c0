method M(i: int, j: int, k: int) returns (n: nat, m: nat) {
  n, m := i, j / k;
  n, m := i % j, m;
  return i, j;
}
