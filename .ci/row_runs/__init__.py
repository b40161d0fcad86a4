"""The rows of .ci/rows: how they are written, and how they are run."""
