"""Each text of the program and its solvers, read and written once."""
