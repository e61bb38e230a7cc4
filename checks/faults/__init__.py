"""Programs to which the system refuses, cuts, interrupts or delays what they ask for."""
