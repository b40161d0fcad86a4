"""The commands of pages and of files `expected`: how they are written, and how they are run; and calls made from the table of words."""
