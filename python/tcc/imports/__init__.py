"""Reads histories of Jepsen and Elle, and makes records of them."""
