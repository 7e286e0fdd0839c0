method M(i: int) requires i {  }
