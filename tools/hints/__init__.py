"""What the terminal says beside the program: tools/hint speaks after an answer. Nothing here changes a file."""
