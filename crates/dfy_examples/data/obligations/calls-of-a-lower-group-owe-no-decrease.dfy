method Top(n: int) {
  Low(n + 100);
  Top(n - 1);
}

method Low(n: int) {
  if n > 0 { Low(n - 1); }
}
