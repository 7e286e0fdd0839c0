method M(b: bool) { if b { var x: int; x := 1; print x; } else { var x: int; } }
