"""The steps of a scenario: its tables, its solution, the check of that, its picture; and the summary of all."""
