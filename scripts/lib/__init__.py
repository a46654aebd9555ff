"""What the tools of this folder are made of: a package a tool, and what they share."""
