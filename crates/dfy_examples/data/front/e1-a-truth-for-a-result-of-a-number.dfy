method M() returns (r: nat) { r := true; }
