"""What `explain` writes."""
