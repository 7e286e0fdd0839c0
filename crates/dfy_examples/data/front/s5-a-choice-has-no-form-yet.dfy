method M(x: int) { x :| true; }
