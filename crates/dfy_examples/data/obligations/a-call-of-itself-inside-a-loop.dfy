method M(n: nat)
  decreases n
{
  var i: nat := 0;
  while i < n {
    M(i);
    i := i + 1;
  }
}
