method M(b: bool) { print !b, ! !b, && b, || b || b, b ==> b ==> b, b <== b <== b, b <==> b <==> b, b && b ==> b || b <==> b; }
