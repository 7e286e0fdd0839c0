method M(n: int)
  decreases n
{
  M(n - 1);
}

method K(n: int)
  decreases -n
{
  if n < 10 { K(n + 1); }
}

method J(n: int)
  decreases 10 - n
{
  if n < 10 { J(n + 1); }
}
