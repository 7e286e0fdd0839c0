method A(n: int)
  requires n >= 0
{
  if n > 0 { B(n - 1); }
}

method B(n: int)
  requires n >= 0
{
  if n > 0 { C(n - 1); }
}

method C(n: int)
  requires n >= 0
{
  A(n);
  D(n);
}

method D(n: int) { }
