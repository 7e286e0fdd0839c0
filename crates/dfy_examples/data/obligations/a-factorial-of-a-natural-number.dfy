method Factorial(n: nat) returns (r: nat)
  ensures r >= 1
{
  if n == 0 {
    r := 1;
  } else {
    r := Factorial(n - 1);
    r := n * r;
  }
}
