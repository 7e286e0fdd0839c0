method First() {
  var i: int := 0;
  while i < 5
  {
    break;
    assert false;
  }
}

method InABranch(a: int) {
  var i: int := 0;
  while i < a
  {
    if i == 3 {
      break;
      assert false;
    }
    assert i != 3;
    i := i + 1;
  }
}
