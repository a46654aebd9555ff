"""How times are measured."""
