method M() { var x: int; while true decreases x { x := 1; } }
