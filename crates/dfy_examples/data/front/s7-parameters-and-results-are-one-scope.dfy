method M(a: int) returns (a: int) {  }
