"""Exact results: numbers that follow from proved laws of traffic, without a simulation."""
