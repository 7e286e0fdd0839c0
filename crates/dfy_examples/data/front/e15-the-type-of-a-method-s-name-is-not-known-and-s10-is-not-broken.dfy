method M() { var x; x := M; }
