newtype i8 = x: int | -128 <= x < 128

// A clock that is one minute on.
method Tick(h: i8, m: i8) returns (hours: i8, minutes: i8)
  requires 0 <= h < 24 && 0 <= m < 60
  ensures 0 <= hours < 24 && 0 <= minutes < 60
  ensures m < 59 ==> hours == h && minutes == m + 1
  ensures m == 59 ==> minutes == 0 && hours == h + 1
{
  hours, minutes := h, m + 1;
  if minutes == 60 {
    hours, minutes := (h + 1) % 24, 0;
  }
}
