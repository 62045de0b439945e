"""What `tcc limits` prints, which tests/docs/told.py --write writes from the sources."""
MAX_NAME_BYTES = 32
MAX_OPERATIONS = 256
MAX_SESSIONS = 64
MAX_TRANSACTIONS = 4095
MAX_KEYS = 1024
MAX_SEALS = 256
MAX_INPUT_BYTES = 134217728
LARGE_SESSIONS = 65535
LARGE_TRANSACTIONS = 16777215
LARGE_KEYS = 16777216
LARGE_SEALS = 1048576
LARGE_INPUT_BYTES = 17179869184
MAX_WORKERS = 32
# By what they are of: by default, and with --large.
DEFAULT = {"sessions": MAX_SESSIONS, "transactions": MAX_TRANSACTIONS, "keys": MAX_KEYS, "operations in a transaction": MAX_OPERATIONS}
LARGE = {"sessions": LARGE_SESSIONS, "transactions": LARGE_TRANSACTIONS, "keys": LARGE_KEYS, "operations in a transaction": MAX_OPERATIONS}
