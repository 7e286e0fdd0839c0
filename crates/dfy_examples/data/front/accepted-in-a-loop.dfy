method M(i: int) { while i < 3 { { break; } while i < 2 { break; } if i == 1 { } else { break; } break; } }
