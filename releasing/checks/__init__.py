"""What packaging/check tries. Each check is a text and whether it passed."""
