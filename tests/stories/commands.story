# Answers, reports and drains, with what posts and turns make of them.

# A job is in flight until its answer comes, which is heard once.
story a_job_is_answered_once: ALWAYS ALWAYS
post a 0 11.21 = reply a 200 -
report a 0 = report a accepted=1 undecided=1
turn 1000 = job a 1 11.21
report a 1000 = report a accepted=1 active=1
answer a 1000 1 0 200 - - = done a
answer a 1000 1 0 200 - - = refused a 21
answer a 1000 2 0 200 - - = refused a 21
report a 1000 = report a accepted=1 exported=1

# Tickets, answers and counters are each tenant's own.
story tenants_answer_for_themselves: ALWAYS ALWAYS
post a 0 11.21 = reply a 200 -
post b 0 12.22 = reply b 200 -
turn 1000 = job a 1 11.21
turn 1000 = job b 1 12.22
answer b 1000 1 0 200 - - = done b
report a 1000 = report a accepted=1 active=1
report b 1000 = report b accepted=1 exported=1
answer a 1000 1 0 400 - - = done a
report a 1000 = report a accepted=1 back_end_refused=1
report b 1000 = report b accepted=1 exported=1

# The interval is 5,000, then 7,500, then 11,250, and half of it is the spread: the word 0 picks an interval less its
# half, the greatest word one and a half. A job that is sent again has the next ticket.
story a_word_picks_when_a_batch_is_sent_again: ALWAYS ALWAYS
post a 0 11.21 = reply a 200 -
turn 1000 = job a 1 11.21
answer a 1000 1 0 503 - - = done a
turn 3499 = idle
turn 3500 = job a 2 11.21
answer a 3500 2 4294967295 429 9 - = done a
turn 14749 = idle
turn 14750 = job a 3 11.21
answer a 14750 3 0 failed - - = done a
report a 14750 = report a accepted=1 active=1
turn 20374 = idle
turn 20375 = job a 4 11.21
answer a 20375 4 0 404 - - = done a
report a 20375 = report a accepted=1 back_end_refused=1

# A back end that is asked to wait is heeded, a day at most: 86,400 seconds after 1,000 milliseconds.
story a_back_end_asks_for_a_wait: NEVER_TOO_LATE
post a 0 11.21 = reply a 200 -
turn 1000 = job a 1 11.21
answer a 1000 1 0 503 99999 - = done a
turn 86400999 = idle
turn 86401000 = job a 2 11.21

# A reply that says of five spans that they were rejected: there was one.
story a_partial_success_is_counted: ALWAYS ALWAYS
post a 0 11.21 = reply a 200 -
turn 1000 = job a 1 11.21
answer a 1000 1 0 200 - 0A020805 = done a
report a 1000 = report a accepted=1 back_end_rejected=1

# A drained tenant sends at once what it holds, and takes no more; the other goes on.
story a_drained_tenant_takes_no_more: ALWAYS ALWAYS
post a 0 11.21 = reply a 200 -
drain a 500 = done a
turn 499 = idle
turn 500 = job a 1 11.21
post a 501 11.21 = reply a 503 120d7368757474696e6720646f776e
post b 501 12.22 = reply b 200 -
drain a 502 = done a
answer a 502 1 0 200 - - = done a
report a 502 = report a accepted=1 exported=1
report b 502 = report b accepted=1 undecided=1

# Two spans fill a batch; a third waits five seconds for one, and is sent while the first job is in flight.
story spans_wait_for_a_batch: TWO_FILL_A_BATCH
post a 0 11.21 = reply a 200 -
post a 0 12.22 = reply a 200 -
turn 1000 = job a 1 11.21+12.22
post a 1000 13.23 = reply a 200 -
turn 2000 = worked a
report a 2000 = report a accepted=3 pending=1 active=2
turn 6999 = idle
turn 7000 = job a 2 13.23

# What no policy samples is dropped when its wait is over.
story a_trace_is_dropped: ONLY_ERRORS
post a 0 11.21 = reply a 200 -
turn 1000 = worked a
turn 1000 = idle
report a 1000 = report a accepted=1 not_sampled=1

# Of two spans the second is above the budget of one, and so is all of the next post, until the span has left.
story spans_above_the_budget_are_refused: ONE_SPAN
post a 0 11.21+12.22 = reply a 200 0a260801122272656a65637465643a203020696e76616c69642c2031206f76657220627564676574
post a 0 13.23 = reply a 429 12157370616e2062756467657420657868617573746564
turn 1000 = job a 1 11.21
post a 1000 13.23 = reply a 200 -
report a 1000 = report a accepted=2 undecided=1 active=1 over_budget=1

# A report and an answer run the timers that are due, and a tenant's clock never falls.
story reports_and_answers_tell_the_time: ALWAYS ALWAYS
post a 0 11.21 = reply a 200 -
report a 1000 = report a accepted=1 queued=1
turn 999 = idle
turn 1000 = job a 1 11.21
answer a 0 1 0 503 - - = done a
turn 3499 = idle
turn 3500 = job a 2 11.21
