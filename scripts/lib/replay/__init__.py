"""How the programs are run, and what they do is compared."""
