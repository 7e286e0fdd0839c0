newtype small = x: int | 0 <= x < 100

method M(a: int, b: int, s: small)
  requires b != 0
{
  var i: int := 0;
  while i < a / b { i := i + 1; }
  var k: small := 0;
  while k < s - 1 { k := k + 1; }
}
