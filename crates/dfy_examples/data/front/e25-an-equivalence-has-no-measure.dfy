method M(b: bool, i: int) { while i < 3 <==> b { } }
