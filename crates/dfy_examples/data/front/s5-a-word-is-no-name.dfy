method var() { }
