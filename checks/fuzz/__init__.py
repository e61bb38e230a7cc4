"""Random inputs and changes of stored ones, to which programs are held."""
