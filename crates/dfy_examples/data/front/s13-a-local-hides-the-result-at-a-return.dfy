method M() returns (r: int) { var r := 1; return; }
