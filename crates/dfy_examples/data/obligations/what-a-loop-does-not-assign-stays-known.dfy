method M(a: int) returns (r: int)
  ensures r == a + 1
{
  var k: int := a + 1;
  var i: int := 0;
  while i < 5 {
    var t: int := i;
    t := t + 1;
    i := t;
  }
  r := k;
}
