method M() { { { var x: int := true; } } }
