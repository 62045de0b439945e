"""Answers for a recording while it goes on."""
