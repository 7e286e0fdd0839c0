method Main() {
  var n := 10;
  print n, "\n";
}
