"""Compiling the program and the library for C without a proof."""
