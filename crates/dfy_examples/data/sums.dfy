// Every result of a sum lies in its newtype. With one more in the last line the run would be wrong, and
// nothing would be printed: status 1.
newtype percent = p: int | 0 < p <= 100 witness 50
method Main() {
  var half: percent := 25 + 25;
  var most: percent := half + 20 + 29;
  print half, " of ", most, "\n";
  print most + 1, "\n";
}
