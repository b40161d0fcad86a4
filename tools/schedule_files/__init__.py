"""Schedule files by chapter 7 of IATA's Standard Schedules Information Manual, for tools/ssim: fixed lines of 200 bytes.

layout      which bytes of a line are what, and their forms
days        dates, times and variations from UTC as the lines write them
reading     a whole file, each line judged
selecting   the legs of a date or a week
naming      their names, and which follow each other as one flight
costing     what a plan may use, and what it costs, by files of the caller's
figures     what it costs by a planner's own figures
choosing    other times and legs that may be left out, by files of the caller's
tables      the tables of a folder
splitting   an itinerary that a plan changes on some of its dates, in parts
laying      on which dates a plan is laid
retiming    a leg that departs later or earlier
planning    a plan written back into the file
changing    few changes: their cost, flights that keep their fleet, what is told of a plan
onward      which flight the aircraft of a leg flies next
judging     what the program says of a plan
made        how the tables of a folder were made, for the plan later
weeks       the flights of a file through its weeks
walking     where an aircraft is missing
counting    how many aircraft weeks need, by the program
weighing    whether the fleets can fly the new file
files       files read, and written whole
words       the words of a call"""
