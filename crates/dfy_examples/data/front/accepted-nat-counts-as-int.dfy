method M(n: nat, i: int) { var m: nat := n + 1; print -n, n * i; }
