newtype small = x: int | 0 <= x < 100

method Main() {
  var a: small := 99;
  var b: small := 100;
  var c: small := -1;
  var n: nat := 0;
  var m: nat := -1;
  var i: int := -1;
  var h: char := 'h';
}
