"""What makes the vectors of the gate: the input of each program vectors_*, with the answers that are expected of it."""
