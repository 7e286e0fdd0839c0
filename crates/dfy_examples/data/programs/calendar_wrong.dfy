newtype i8 = x: int | -128 <= x < 128

method Days(month: i8, leap: bool) returns (d: i8)
  requires 1 <= month <= 12
  ensures 28 <= d <= 31
  ensures month == 2 <==> d < 30
{
  if month == 2 {
    if leap { d := 29; } else { d := 28; }
  } else if month == 4 || month == 6 || month == 9 || month == 11 {
    d := 30;
  } else {
    d := 31;
  }
}

method Main() {
  var m: i8 := 1;
  while m <= 12
    invariant 1 <= m <= 12
  {
    var d: i8 := Days(m, true);
    print d, " ";
    m := m + 1;
  }
}
