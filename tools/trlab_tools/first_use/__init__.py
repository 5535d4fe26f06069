"""Tests of ./trlab on first use, each in a small checkout of its own."""
