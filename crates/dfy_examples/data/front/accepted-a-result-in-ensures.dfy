method M() returns (r: int) ensures r == 0 { r := 0; }
