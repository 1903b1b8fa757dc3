"""What judges the program, the tools and the documents: the kinds of runs, and what they have in common."""
