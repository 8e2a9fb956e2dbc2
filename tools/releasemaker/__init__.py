"""Makes a release: archives of the sources, of the program and of the library, the same bytes each time."""
