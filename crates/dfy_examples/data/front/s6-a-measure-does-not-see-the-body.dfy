method M() { while true decreases x { var x := 1; } }
