"""How the programs are built: proved, and unproved."""
