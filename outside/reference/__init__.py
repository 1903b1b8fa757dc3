"""What is defined apart from the solver: instances, texts, plans, moves, bounds, the check and the least cost."""
