newtype money = x: int | 0 <= x <= 1_000_000_000
newtype i64 = x: int | -0x8000_0000_0000_0000 <= x < 0x8000_0000_0000_0000

// A fee of three thousandths, rounded down.
method Fee(amount: money) returns (fee: money)
  ensures fee <= amount
  ensures 1000 * (fee as int) <= 3 * (amount as int) < 1000 * (fee as int + 1)
{
  fee := (3 * (amount as i64) / 1000) as money;
}

// A balance that no way makes negative.
method Withdraw(balance: money, amount: money) returns (left: money, done: bool)
  ensures done ==> left as int + amount as int <= balance as int
  ensures !done ==> left == balance
{
  var fee: money := Fee(amount);
  left, done := balance, false;
  if amount as i64 + fee as i64 <= balance as i64 {
    left, done := balance - amount - fee, true;
  }
}

method Main() {
  var left: money, done: bool := Withdraw(10000, 2000);
  assert !done;
  print left, " ", done, "\n";
}
