"""Data of a schema, outside of the program: YANG modules, paths, changes of data, and who is asked about them."""
