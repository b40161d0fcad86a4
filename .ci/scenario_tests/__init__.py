"""Tests of tools/scenarios."""
