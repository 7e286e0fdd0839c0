method Next(c: char) returns (d: char)
  requires c == 'r' || c == 'g' || c == 'y'
  ensures c == 'r' ==> d == 'g'
  ensures c == 'g' ==> d == 'y'
  ensures c == 'y' ==> d == 'r'
{
  if c == 'r' { d := 'g'; } else if c == 'g' { d := 'y'; } else { d := 'y'; }
}
