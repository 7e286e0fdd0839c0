method Kept(a: int)
  requires a > 0
  ensures a >= 1
{ }

method Nothing() { }

method Constant(a: bool)
  ensures a || !a
{
  { { } }
}
