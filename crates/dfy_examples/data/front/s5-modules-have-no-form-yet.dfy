module A { }
