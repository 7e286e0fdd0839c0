method M(a: int) returns (b: bool, c: char)
  ensures b <==> a > 0
  ensures c == 'p' || c == 'n'
{
  if a > 0 {
    b, c := true, 'p';
  } else {
    b, c := false, 'n';
  }
}
