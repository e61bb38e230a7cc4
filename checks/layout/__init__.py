"""How code has to be laid out, and what neither it nor pages may have."""
