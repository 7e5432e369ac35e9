# What a drained tenant sends, and that it takes nothing more.

# Rows that wait have their verdict at once, all that waits for a batch is one, and the tenant goes on to send it;
# posts are refused from then on.
story a_drained_tenant_sends_what_it_has: ERRORS BASE
post a 0 11.21.7a021802 = reply a 200 -
post a 600 12.22 = reply a 200 -
post a 700 13.23.7a021802 = reply a 200 -
post b 700 13.23 = reply b 200 -
drain a 1200 = done a
report a 1200 = report a accepted=3 queued=2 not_sampled=1
report b 1200 = report b accepted=1 undecided=1
post a 1300 14.24.7a021802 = reply a 503 120d7368757474696e6720646f776e
post a 1300 - = reply a 503 120d7368757474696e6720646f776e
turn 1199 = idle
turn 1200 = job a 1 11.21.7a021802+13.23.7a021802
drain a 1400 = done a
answer a 1400 1 0 503 - - = done a
turn 1700 = job b 1 13.23
turn 3899 = idle
turn 3900 = job a 2 11.21.7a021802+13.23.7a021802
answer a 3900 2 0 200 - - = done a
report a 3900 = report a accepted=3 exported=2 not_sampled=1
turn 9000 = idle

# A batch of a drain finds the queue full like any other.
story a_drain_makes_no_room: ONE_WAITS
post a 0 11.21+12.22 = reply a 200 -
drain a 0 = done a
report a 0 = report a accepted=2 queued=1 queue_full=1
turn 0 = job a 1 11.21
turn 0 = idle

# A drain's batches are sent one after another, in the order of their rows: each counts as waiting until a worker takes it,
# and one that is sent again goes before those that wait.
story a_drain_sends_batch_after_batch: TWO_SENT BASE
post a 0 11.21+11.22 = reply a 200 -
post a 100 12.23 = reply a 200 -
post a 200 13.24 = reply a 200 -
post a 300 14.25 = reply a 200 -
post a 400 15.26 = reply a 200 -
post b 400 14.25 = reply b 200 -
drain a 500 = done a
report a 500 = report a accepted=6 queued=6
turn 499 = idle
turn 500 = job a 1 11.21+11.22
report a 500 = report a accepted=6 queued=4 active=2
post a 500 16.27 = reply a 503 120d7368757474696e6720646f776e
drain a 500 = done a
retire a 500 = refused a 26
turn 500 = job a 2 12.23
turn 500 = idle
answer a 600 1 0 503 - - = done a
turn 600 = idle
answer a 700 2 0 200 - - = done a
report a 700 = report a accepted=6 queued=3 active=2 exported=1
turn 700 = job a 3 13.24
turn 700 = idle
turn 1400 = job b 1 14.25
turn 3099 = idle
turn 3100 = job a 4 11.21+11.22
answer a 3100 3 0 200 - - = done a
turn 3100 = job a 5 14.25
answer a 3200 4 0 200 - - = done a
turn 3200 = job a 6 15.26
turn 3200 = idle
answer a 3300 6 0 200 - 0A020801 = done a
answer a 3300 5 0 200 - - = done a
retire a 3300 = report a accepted=6 exported=5 back_end_rejected=1
turn 9000 = idle
