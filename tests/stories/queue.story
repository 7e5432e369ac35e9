# Which batch is sent next, and when again.

# A batch that finds the queue full is dropped, the newest and no older one. One that is to be sent again waits twice
# as long each time, up to the longest interval, until too much time has passed; the other tenant's may take a
# millisecond more.
story batches_are_sent_again_until_too_much_time_has_passed: GIVES_UP GOES_ON
post a 0 11.21 = reply a 200 -
post a 0 12.22 = reply a 200 -
post a 0 13.23 = reply a 200 -
post b 0 11.31 = reply b 200 -
turn 1000 = job a 1 11.21
turn 1000 = job b 1 11.31
report a 1000 = report a accepted=3 queued=1 active=1 queue_full=1
answer a 1000 1 0 503 - - = done a
answer b 1000 1 0 503 - - = done b
turn 1999 = idle
turn 2000 = job a 2 11.21
turn 2000 = job b 2 11.31
answer a 2000 2 4294967295 429 - - = done a
answer b 2000 2 4294967295 429 - - = done b
turn 3999 = idle
turn 4000 = job a 3 11.21
turn 4000 = job b 3 11.31
answer a 4000 3 0 failed - - = done a
answer b 4000 3 0 failed - - = done b
turn 7999 = idle
turn 8000 = job a 4 11.21
turn 8000 = job b 4 11.31
answer a 8000 4 0 504 - - = done a
answer b 8000 4 0 504 - - = done b
report a 8000 = report a accepted=3 queued=1 queue_full=1 retry_exhausted=1
report b 8000 = report b accepted=1 active=1
turn 8000 = job a 5 12.22
turn 11999 = idle
turn 12000 = job b 5 11.31
answer a 12000 5 0 502 40 - = done a
turn 12999 = idle
turn 13000 = job a 6 12.22

# The word picks the delay, and the back end asks for a longer one, a day at most. Of two that are due at one moment
# the one of the lower ticket goes first.
story delays_are_picked_and_asked_for: RANDOM
post a 0 11.21+12.22+13.23 = reply a 200 -
turn 1000 = job a 1 11.21
turn 1000 = job a 2 12.22
turn 1000 = job a 3 13.23
answer a 1000 1 4294967295 503 - - = done a
answer a 1000 3 0 503 1 - = done a
answer a 1000 2 2147483648 503 1 - = done a
turn 1999 = idle
turn 2000 = job a 4 12.22
turn 2000 = job a 5 13.23
turn 2499 = idle
turn 2500 = job a 6 11.21
answer a 2500 4 0 429 100000 - = done a
answer a 2500 5 0 500 - - = done a
answer a 2500 6 0 503 - - = done a
turn 2999 = idle
turn 3000 = job a 7 11.21
turn 86402499 = idle
turn 86402500 = job a 8 12.22
report a 86402500 = report a accepted=3 active=2 back_end_refused=1

# A batch that waits to be sent again keeps its consumer, and goes before the queue.
story batches_that_are_due_again_go_first: TWO_SENT
post a 0 11.21+12.22+13.23 = reply a 200 -
turn 1000 = job a 1 11.21
turn 1000 = job a 2 12.22
turn 1000 = idle
answer a 1000 1 0 503 - - = done a
turn 3499 = idle
answer a 3500 2 0 200 - - = done a
turn 3500 = job a 3 11.21
turn 3500 = job a 4 13.23
turn 3500 = idle
