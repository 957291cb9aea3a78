"""The parts of the command sheet."""
