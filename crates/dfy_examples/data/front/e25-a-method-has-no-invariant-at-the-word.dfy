method M() invariant true {  }
