newtype i32 = x: int | -0x8000_0000 <= x < 0x8000_0000

method Next(head: i32, capacity: i32) returns (next: i32)
  requires 0 <= head < capacity && capacity == 4
  ensures next == (head + 1) % capacity
{
  next := head + 1;
  if next > capacity { next := 0; }
}
