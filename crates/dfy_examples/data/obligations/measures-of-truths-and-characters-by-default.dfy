method Once(b: bool) returns (r: int)
  ensures r >= 0
{
  r := 0;
  if b { r := Once(false); }
}

method Down(c: char) returns (r: int)
  ensures r >= 0
{
  r := 0;
  if c > 'a' { r := Down('a'); }
}

method Both(b: bool, c: char) {
  if b {
    Both(false, 'z');
  } else if c > 'a' {
    Both(b, 'a');
  }
}
