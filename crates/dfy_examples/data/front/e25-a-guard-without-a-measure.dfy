method M() { while true { } }
