newtype i8 = x: int | -128 <= x < 128

method Main() {
  var i: i8 := 1;
  while i <= 15
    invariant 1 <= i <= 15
  {
    if i % 3 == 0 && i % 5 == 0 { print "FizzBuzz"; }
    else if i % 3 == 0 { print "Fizz"; }
    else if i % 5 == 0 { print "Buzz"; }
    else { print i; }
    print " ";
    i := i + 1;
  }
}
