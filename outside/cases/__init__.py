"""What the judges put in: random instances and texts, and rows that were made by hand."""
