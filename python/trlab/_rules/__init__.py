"""Rules written as Python functions: their translation into driver programs."""
