method M() returns (r: int) requires r == 0 { r := 0; }
