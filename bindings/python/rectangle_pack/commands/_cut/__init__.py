"""The parts of the command `cut`: a cutting list becomes plans for a panel saw, drawings, and a list of offcuts."""
