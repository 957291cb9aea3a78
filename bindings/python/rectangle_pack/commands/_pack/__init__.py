"""The parts of the command pack."""
