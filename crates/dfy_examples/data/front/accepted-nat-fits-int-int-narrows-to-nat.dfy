method M(n: nat, i: int) { var a: int := n; var b: nat := i; }
