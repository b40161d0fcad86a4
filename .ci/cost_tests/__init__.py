"""Tests of tools/costs, and of what prices pairs anew."""
