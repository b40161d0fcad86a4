"""Tests of what the tools share: whole writes, what they tell, and how they end."""
