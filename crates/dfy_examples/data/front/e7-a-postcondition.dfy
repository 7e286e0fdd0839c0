method M() returns (r: int) ensures r { r := 1; }
