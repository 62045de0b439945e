"""The kinds of read faults, which tests/docs/kinds.py --write writes from docs/faults.json."""
# Of each kind how it is called, and what the transaction did, a violation first.
FAULTS = {
    "BrokenInternal": ("internal", "read a key after its own write of it, and got something else"),
    "Aborted": ("aborted read (G1a)", "read a value whose transaction aborted"),
    "Intermediate": ("intermediate read (G1b)", "read a value that its transaction wrote over before it committed"),
    "Future": ("future read", "read a value that its own transaction wrote only later"),
    "Duplicate": ("value written twice", "wrote a value that another write of its key has too"),
    "ThinAir": ("value from nowhere", "read a value that nobody wrote"),
}
# The names that the field has.
FIELD_NAMES = {
    "BrokenInternal": "internal",
    "Aborted": "G1a",
    "Intermediate": "G1b",
}
# What no promise lets be: others may be faults of the records.
VIOLATIONS = {
    "BrokenInternal": "internal",
    "Aborted": "aborted read (G1a)",
    "Intermediate": "intermediate read (G1b)",
    "Future": "future read",
}
# What is said of the write that a fault is about: the first one of the value.
WRITTEN = {
    "Duplicate": "wrote it before",
    "Aborted": "wrote it, in a transaction that aborted",
    "Intermediate": "wrote it, and wrote the key again in its transaction",
    "Future": "wrote it, later in the transaction",
}
# The same where that is the reader's own write of the key before.
OWN = {
    "BrokenInternal": "wrote another value before",
}
