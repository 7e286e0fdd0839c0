method M(c: char) { var x: int := c as char; }
