"""Edits: wrong bodies and wrong readings, which the prover must refuse. How their files are read,
what is said to be wrong with them, and how they are tried."""
