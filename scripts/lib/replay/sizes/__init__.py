"""The documents of each size, and what the program answers to them."""
