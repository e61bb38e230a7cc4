"""The documents and command lines of examples/, with what the program has to write of them."""
