"""Analysis on numpy, pandas and matplotlib: frames, means, estimates, detectors and plots."""
