# Two tenants of one shard, whose steps come between each other's.

# A body is posted, a turn comes too early, one hands the batch out, and its answer is heard once.
story a_batch_is_sent_and_answered_once: BASE BASE
post a 0 - = reply a 200 -
report a 0 = report a -
turn 999999 = idle
post a 0 11.21 = reply a 200 -
turn 1000999 = job a 1 11.21
answer a 1000999 1 0 200 - - = done a
report a 1000999 = report a accepted=1 exported=1
answer a 1000999 1 0 200 - - = refused a 21
report b 0 = report b -

# What comes before a trace's decision leaves with it, what comes later alone, and one batch at a time is on its way.
story late_spans_leave_alone: BASE BASE
post a 0 11.21 = reply a 200 -
post a 999 11.22 = reply a 200 -
post a 1000 11.23 = reply a 200 -
turn 1000 = job a 1 11.21+11.22
turn 1000 = idle
answer a 1000 1 0 200 - - = done a
turn 1000 = job a 2 11.23

# The other tenant does the same between: rows and tickets are each one's own, and freed places change owners.
story rows_leave_for_others_of_their_tenant_alone: TWO_TRACES BASE
post a 0 11.21 = reply a 200 -
post b 0 11.31 = reply b 200 -
post a 0 12.22 = reply a 200 -
post b 0 12.32 = reply b 200 -
post a 0 13.23 = reply a 200 -
post b 0 13.33 = reply b 200 -
report a 0 = report a accepted=3 undecided=2 too_early=1
report b 0 = report b accepted=3 undecided=3
post a 0 11.24 = reply a 200 -
report a 0 = report a accepted=4 undecided=2 too_early=2
turn 1000 = job a 1 13.23
turn 1000 = job b 1 11.31
answer a 1000 1 0 200 - - = done a
answer b 1000 1 0 200 - - = done b
turn 1000 = job a 2 11.24
turn 1000 = job b 2 12.32

# A tenant's budget is its own: the other's post is taken whole.
story a_budget_is_its_tenants_own: TWO_SPANS BASE
post a 0 11.21+11.22+11.23 = reply a 200 0a260801122272656a65637465643a203020696e76616c69642c2031206f76657220627564676574
post a 0 12.24 = reply a 429 12157370616e2062756467657420657868617573746564
post b 0 11.21+11.22+11.23 = reply b 200 -
report a 0 = report a accepted=2 undecided=2 over_budget=1
report b 0 = report b accepted=3 undecided=3

# A batch that is to be sent again waits as long as its back end says, and is given up where that takes too long; one
# that finds the queue full is dropped.
story batches_are_sent_again_or_given_up: ONE_BATCH BASE
post a 0 11.21 = reply a 200 -
post a 0 12.22 = reply a 200 -
post a 0 13.23 = reply a 200 -
turn 1000 = job a 1 11.21
report a 1000 = report a accepted=3 active=1 queue_full=2
answer a 1000 1 0 503 40 - = done a
turn 40999 = idle
turn 41000 = job a 2 11.21
answer a 41000 2 4294967295 503 - - = done a
report a 41000 = report a accepted=3 queue_full=2 retry_exhausted=1

# The clock is each tenant's own, and never falls.
story clocks_are_apart: BASE BASE
post a 5000 14.24 = reply a 200 -
post a 100 15.25 = reply a 200 -
post b 100 11.21 = reply b 200 -
turn 1100 = job b 1 11.21
turn 5999 = idle
turn 6000 = job a 1 14.24
report a 6000 = report a accepted=2 queued=1 active=1

# The batch timer runs before the decision of its moment.
story the_batch_timer_goes_first: LATER BASE
post a 0 11.21 = reply a 200 -
post a 1000 12.22 = reply a 200 -
turn 2000 = job a 1 11.21
report a 2000 = report a accepted=2 pending=1 active=1

# A drained tenant sends what it holds, takes nothing more, and the other one goes on.
story a_drained_tenant_takes_no_more: BASE BASE
post a 0 11.21 = reply a 200 -
drain a 500 = done a
drain a 500 = done a
report a 500 = report a accepted=1 queued=1
post a 600 12.22 = reply a 503 120d7368757474696e6720646f776e
post b 600 12.22 = reply b 200 -
turn 600 = job a 1 11.21
turn 600 = idle
turn 1600 = job b 1 12.22
