method Number(n: int) {
  if n > 0 { Truth(false); }
}

method Truth(b: bool) {
  if b { Number(-1); }
}
