method M( { } } yield
