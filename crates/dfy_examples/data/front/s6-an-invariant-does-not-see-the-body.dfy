method M() { while true invariant x == 0 decreases 0 { var x := 0; } }
