method M() { var x: int, y: int := 1, 2 + true, 3; }
