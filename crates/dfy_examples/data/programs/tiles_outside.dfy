newtype i32 = x: int | -0x8000_0000 <= x < 0x8000_0000

// The number of a tile in rows of tiles.
method Index(row: i32, column: i32, rows: i32, columns: i32) returns (i: i32)
  requires 0 <= row < rows <= 1000 && 0 <= column < columns <= 1000
  ensures 0 <= i && i as int < (rows as int) * (columns as int)
{
  i := row * columns + column;
}

method Main() {
  var i: i32 := Index(4, 0, 4, 5);
  print i, "\n";
}
