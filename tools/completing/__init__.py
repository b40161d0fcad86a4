"""What tools/completion makes of the table of words: scripts by which shells complete calls, and the page of the manual."""
