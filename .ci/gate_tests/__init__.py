"""Tests of the scripts that the gate is made of."""
