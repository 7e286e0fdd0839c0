method M() returns (r: bool) ensures M() { r := true; }
