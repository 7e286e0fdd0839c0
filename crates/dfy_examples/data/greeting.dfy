// Texts are printed as their characters; escapes stand for one character each.
newtype small = n | 0 <= n < 1_000
method Main() {
  print "Hello, \"world\"!\n";
  print "one\ttwo\n", /* comments /* nest */ */ "\\ and \' and \0 end here\n";
}
