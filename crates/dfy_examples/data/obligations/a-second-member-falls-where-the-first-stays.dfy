method A(n: int)
  requires n >= 0
  decreases n, 1
{
  B(n);
}

method B(n: int)
  requires n >= 0
  decreases n, 0
{
  if n > 0 { A(n - 1); }
}
