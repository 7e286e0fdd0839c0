method M(a: ) { }
