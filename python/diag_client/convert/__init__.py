"""Netlists that tools wrote, made into files that `diag` reads. It needs no program."""
