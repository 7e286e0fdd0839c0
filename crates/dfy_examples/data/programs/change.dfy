newtype i8 = x: int | -128 <= x < 128

method Change(cents: i8) returns (quarters: i8, dimes: i8, nickels: i8, pennies: i8)
  requires 0 <= cents < 100
  ensures cents == 25 * quarters + 10 * dimes + 5 * nickels + pennies
  ensures 0 <= quarters <= 3 && 0 <= dimes <= 2 && 0 <= nickels <= 1 && 0 <= pennies <= 4
{
  quarters := cents / 25;
  var left: i8 := cents % 25;
  dimes := left / 10;
  left := left % 10;
  nickels, pennies := left / 5, left % 5;
}

method Main() {
  var q: i8, d: i8, n: i8, p: i8 := Change(68);
  print q, " ", d, " ", n, " ", p, "\n";
}
