"""What a report leaves open, why, and what would help."""
