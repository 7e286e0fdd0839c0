method Main() {
  print "the sum\n";
}
