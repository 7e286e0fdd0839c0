method M() { calc { } }
