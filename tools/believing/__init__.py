"""The definitions that the program's contract stands on: tools/believed lists them."""
