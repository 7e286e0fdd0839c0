method M() { while true { while true { } } }
