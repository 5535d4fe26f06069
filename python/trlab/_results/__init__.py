"""Results: the output of the program, as rows, snapshots and trajectories."""
