"""What rule texts mean: their compiled files, decisions, warnings and scripts."""
