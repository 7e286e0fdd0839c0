method M() returns (r: int) ensures r + true == 1 { r := 1; }
