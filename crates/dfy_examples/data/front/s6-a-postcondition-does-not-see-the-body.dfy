method M() ensures x == 1 { var x := 1; }
