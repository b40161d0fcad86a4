"""Tests that the tools are safe with files of others: torn answers, names that aren't text, limits. None needs the program."""
