method M() { var n: nat := 1 + 2; var k: nat := 3; var i: int := -(4); }
