"""The command `desk`: a person at a terminal, over a database in a file."""
