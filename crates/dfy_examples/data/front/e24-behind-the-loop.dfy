method M(i: int) { while i < 3 { } break; }
