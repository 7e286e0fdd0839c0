method M() { é }
