newtype i8 = x: int | -128 <= x < 128

method Next(c: char) returns (d: char)
  requires c == 'r' || c == 'g' || c == 'y'
  ensures c == 'r' ==> d == 'g'
  ensures c == 'g' ==> d == 'y'
  ensures c == 'y' ==> d == 'r'
{
  if c == 'r' { d := 'g'; } else if c == 'g' { d := 'y'; } else { d := 'r'; }
}

method Main() {
  var c: char := 'r';
  var i: i8 := 0;
  while i < 7
    invariant 0 <= i <= 7
    invariant c == 'r' || c == 'g' || c == 'y'
  {
    print c;
    c := Next(c);
    i := i + 1;
  }
}
