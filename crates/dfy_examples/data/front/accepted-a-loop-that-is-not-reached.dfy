method M() { var x: int; return; while true invariant x == 1 decreases x { print x; } }
