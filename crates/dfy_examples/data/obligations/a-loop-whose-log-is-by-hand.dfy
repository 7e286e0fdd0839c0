method Down(n: int)
  requires 0 <= n
{
  var i: int := n;
  while 0 < i
    invariant 0 <= i
  {
    i := i - 1;
  }
}
