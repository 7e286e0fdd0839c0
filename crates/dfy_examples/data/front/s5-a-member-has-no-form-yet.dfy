method M(a: int) { print a.f; }
