method M() { while true ; { } }
