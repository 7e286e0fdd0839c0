method Outer(n: int)
  requires n >= 0
  decreases n
{
  Inner(n, 5);
}

method Inner(n: int, k: int)
  requires n >= 0
  decreases n, k
{
  if n > 0 {
    Outer(n - 1);
  } else if k > 0 {
    Outer(n);
  }
}
