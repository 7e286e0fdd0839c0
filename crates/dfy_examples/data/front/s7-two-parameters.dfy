method M(a: int, a: bool) {  }
