"""The stream tools, and what goes through tools as wholes."""
