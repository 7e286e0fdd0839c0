method M(a: seq<int>) { }
