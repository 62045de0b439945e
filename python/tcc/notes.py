"""Files of annotations, and what they say of each transaction: see `tcc.common.notes`."""
from tcc.common.notes import Event, NoNotes, Note, read_events, read_notes, write_notes

__all__ = ["Event", "NoNotes", "Note", "read_events", "read_notes", "write_notes"]
