"""Parts of the command check."""
