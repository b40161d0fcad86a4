"""Costs of legs by a planner's own figures, for tools/costs, tools/ssim and tools/scenarios: demand and spill, seats, minutes, fuel, fees.

amounts     numbers with decimals: their form, how they are rounded, and how they are written
spilling    how many passengers find no seat, and how many wanted one by how many were carried
legs        the legs that are priced, and which names stand for them
types       what a fleet costs, and where and when it may not fly
figures     the files of figures, read and judged
pricing     the parts and the cost of a pair of a leg and a fleet
choosing    which pairs there are, and why others aren't
making      the texts of the files that are written
telling     what is told of figures, of pairs, and of a plan by them
page        the page of the parts
words       the words of a call of tools/costs, and what it reads and writes
repricing   the pairs of a costs.csv, priced anew for more or less demand, or dearer fuel"""
