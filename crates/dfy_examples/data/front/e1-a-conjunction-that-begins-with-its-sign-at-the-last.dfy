method M(b: bool) { var x: int := && b && b; }
