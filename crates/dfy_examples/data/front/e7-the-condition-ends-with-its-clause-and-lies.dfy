method M() invariant 1 {  }
