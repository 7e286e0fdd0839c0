method M() { while true decreases * { } }
