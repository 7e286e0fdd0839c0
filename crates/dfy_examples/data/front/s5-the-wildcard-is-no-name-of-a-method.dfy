method _() { }
