method M() { print forall x :: x == x; }
