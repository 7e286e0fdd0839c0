method M(n: int) returns (r: int)
  ensures r == 0 || r == 1
{
  r := 0;
  var i: int := 0;
  while i < n {
    if i == 7 {
      r := 1;
      break;
    }
    i := i + 1;
  }
}
