"""Documents, man pages and packages, and whether they say the truth."""
