"""Runs `tcc`, and reads what it answers."""
