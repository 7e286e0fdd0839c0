method M() { var x: bool := M; }
