method M() { print !1; }
