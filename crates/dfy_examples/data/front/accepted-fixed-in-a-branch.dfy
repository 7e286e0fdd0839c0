method M(b: bool) { var x; if b { x := 1; } else { x := 2; } print x; var c; c := 'a'; print c; }
