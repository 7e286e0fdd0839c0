method M() { while true invariant { } }
