method M() { { var M := 1; M(); } }
