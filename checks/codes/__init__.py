"""Random code, and images of it: cases of the suite are made here."""
