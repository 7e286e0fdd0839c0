method M(b: bool) { print -b as int; }
