method M() { var x: int, y: int := true; }
