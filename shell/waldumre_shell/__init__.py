"""A shell over the proved library. It translates and shows; the library reads, guards and answers."""
