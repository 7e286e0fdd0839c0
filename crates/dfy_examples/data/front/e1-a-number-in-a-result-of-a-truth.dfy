method M() returns (r: bool) { r := 1; }
