method M<T>() { }
