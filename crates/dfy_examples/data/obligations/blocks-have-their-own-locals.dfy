method M(a: int) returns (r: int)
  ensures r == a + 3
{
  r := a;
  {
    var k: int := 1;
    r := r + k;
  }
  {
    var k: int := 2;
    { r := r + k; }
    assert k == 2;
  }
}
