"""Studies: many inputs with their parameters, and one frame of all results."""
