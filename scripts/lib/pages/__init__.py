"""How pages are checked, and the made parts of them written."""
