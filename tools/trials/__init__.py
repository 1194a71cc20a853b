"""Trials of the program and of tools/plan: tools/test runs them."""
