method Truth(a: bool) {
  var b: bool := a;
  while b
    decreases b
  {
    b := false;
  }
}

method Character(a: char) {
  var c: char := a;
  while c != 'a'
    decreases c
  {
    c := 'a';
  }
}
