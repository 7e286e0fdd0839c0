method M(a: U, a: int) {  }
