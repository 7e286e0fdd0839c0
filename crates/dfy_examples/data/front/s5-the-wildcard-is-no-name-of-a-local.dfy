method M() { var _ := 1; }
