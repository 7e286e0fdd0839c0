newtype i32 = x: int | -0x8000_0000 <= x < 0x8000_0000

method Next(head: i32, capacity: i32) returns (next: i32)
  requires 0 <= head < capacity
  ensures next == (head + 1) % capacity
{
  next := head + 1;
  if next == capacity { next := 0; }
}

method Main() {
  var inside: i32 := Next(1, 4);
  var around: i32 := Next(3, 4);
  print inside, " ", around, "\n";
}
