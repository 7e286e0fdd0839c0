method M(i: int) returns (r: int) ensures r - i { r := i; }
