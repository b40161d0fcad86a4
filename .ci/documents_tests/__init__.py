"""Tests of the documents that ask what the sources of crates define."""
