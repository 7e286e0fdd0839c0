method Implies(p: bool, q: bool) returns (r: bool)
  ensures r <==> (p ==> q)
{
  r := !p || q;
}

method Both(p: bool, q: bool) returns (r: bool)
  ensures r <==> (p <==> q)
{
  var first: bool := Implies(p, q);
  var second: bool := Implies(q, p);
  r := first && second;
}

method Main() {
  var r: bool := Both(false, false);
  var s: bool := Both(false, true);
  print r, " ", s, "\n";
}
