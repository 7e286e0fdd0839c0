method M() returns (r: int) invariant r == 0 { r := 0; }
