"""The parts of the command `view`: what it reads, and the page that it writes."""
