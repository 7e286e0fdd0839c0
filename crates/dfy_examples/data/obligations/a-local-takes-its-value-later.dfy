method M(a: int) returns (r: int)
  ensures r == 1 || r == 2
{
  var k: int;
  var t: bool;
  if a == 0 {
    k := 1;
    t := true;
  } else {
    k := 2;
    t := false;
  }
  if t { assert a == 0; }
  r := k;
}
