method M() returns (r: int) decreases r { r := 0; }
