method Main() {
  var k: nat := 3;
  k := k - 4;
}
