"""Shows an answer: as a page, as a picture, or as a list of places."""
