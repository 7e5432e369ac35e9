# How many traces are present and how many spans are held, for each tenant by itself.

# A row that is evicted takes its undecided spans with it, and late spans of its trace open another; the other
# tenant's rows, of the same traces, stay.
story rows_leave_for_others_of_their_tenant: TWO_TRACES BASE
post a 0 11.21 = reply a 200 -
post b 0 11.21 = reply b 200 -
turn 1000 = job a 1 11.21
turn 1000 = job b 1 11.21
post a 1000 11.22 = reply a 200 -
post b 1000 12.22 = reply b 200 -
post a 1000 12.23 = reply a 200 -
post b 1000 13.23 = reply b 200 -
post a 1000 13.24 = reply a 200 -
post b 1000 11.24 = reply b 200 -
post a 1000 11.25 = reply a 200 -
post a 1000 12.26 = reply a 200 -
report a 1000 = report a accepted=6 undecided=2 queued=1 active=1 too_early=2
report b 1000 = report b accepted=4 undecided=2 queued=1 active=1
turn 2000 = worked a
turn 2000 = worked b
turn 2000 = idle
answer a 2000 1 0 200 - - = done a
turn 2000 = job a 2 11.22
answer a 2000 2 0 200 - - = done a
turn 2000 = job a 3 11.25
answer a 2000 3 0 200 - - = done a
turn 2000 = job a 4 12.26
report a 2000 = report a accepted=6 active=1 exported=3 too_early=2

# Spans that wait for a decision or for a batch are held, those of a batch aren't. Spans without sound ids take no
# room, and where no span is taken nothing is counted.
story spans_are_held_until_they_are_in_a_batch: THREE_SPANS BASE
post a 0 11.21+11.22 = reply a 200 -
post a 500 12.23+12.24 = reply a 200 0a260801122272656a65637465643a203020696e76616c69642c2031206f76657220627564676574
post b 500 11.21+11.22+12.23+12.24 = reply b 200 -
turn 1000 = worked a
report a 1000 = report a accepted=3 undecided=1 pending=2 over_budget=1
post a 1000 00.25+13.25 = reply a 429 12157370616e2062756467657420657868617573746564
post a 1000 13.00 = reply a 200 0a260801122272656a65637465643a203120696e76616c69642c2030206f76657220627564676574
post a 1000 - = reply a 200 -
turn 1500 = worked a
turn 1500 = job b 1 11.21+11.22
turn 2000 = job a 1 11.21+11.22+12.23
post a 2000 13.25+14.26+14.27+14.28 = reply a 200 0a260801122272656a65637465643a203020696e76616c69642c2031206f76657220627564676574
report a 2000 = report a accepted=6 undecided=3 active=3 invalid=1 over_budget=2

# Rows leave within a post too: that of 11 for 13, and that of 12 for 11, which has another row then.
story rows_leave_within_a_post: TWO_TRACES
post a 0 11.21+11.22+12.23+13.24/11.25+11.26 = reply a 200 -
report a 0 = report a accepted=6 undecided=3 too_early=3
turn 1000 = job a 1 13.24
answer a 1000 1 0 200 - - = done a
turn 1000 = job a 2 11.25+11.26
report a 1000 = report a accepted=6 active=2 exported=1 too_early=3
