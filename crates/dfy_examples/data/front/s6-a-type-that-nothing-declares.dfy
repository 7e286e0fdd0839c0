method M(a: T) {  }
