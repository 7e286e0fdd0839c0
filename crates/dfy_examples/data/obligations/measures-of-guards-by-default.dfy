method Less(n: int) {
  var i: int := 0;
  while i < n { i := i + 1; }
}

method AtMost(n: int) {
  var i: int := 0;
  while i <= n { i := i + 1; }
}

method Greater(n: int) {
  var i: int := n;
  while i > 0 { i := i - 1; }
}

method AtLeast(n: int) {
  var i: int := n;
  while i >= 0 { i := i - 1; }
}

method Conjunction(n: int, b: bool) {
  var i: int := 0;
  while i < n && b { i := i + 1; }
}
