# Which spans share a batch, and when it forms.

# A batch forms as soon as there are two spans and takes three at most; the timer starts anew for the rest. Another
# tenant's spans fill no batch.
story batches_form_by_size_or_by_time: TWO_OR_THREE TWO_OR_MORE
post a 0 11.21+11.22+11.23+11.24 = reply a 200 -
post a 500 12.25 = reply a 200 -
post b 500 12.31 = reply b 200 -
post a 700 13.26 = reply a 200 -
turn 1000 = job a 1 11.21+11.22+11.23
report a 1000 = report a accepted=6 undecided=2 pending=1 active=3
turn 1499 = idle
turn 1500 = job a 2 11.24+12.25
turn 1500 = worked b
turn 1700 = worked a
turn 2499 = idle
turn 2500 = job b 1 12.31
turn 2699 = idle
turn 2700 = job a 3 13.26
report a 2700 = report a accepted=6 active=6
post b 3000 14.32+14.33+14.34+14.35 = reply b 200 -
turn 4000 = job b 2 14.32+14.33+14.34+14.35

# The rest of a cut waits its whole second, and not that of the span which waited before.
story the_timer_starts_anew_for_the_rest: TWO_OR_THREE
post a 0 11.21 = reply a 200 -
post a 400 12.22+12.23+12.24 = reply a 200 -
turn 1000 = worked a
turn 1400 = job a 1 11.21+12.22+12.23
turn 2000 = idle
turn 2399 = idle
turn 2400 = job a 2 12.24

# However late a step comes, batches are those of their own moments, and so is when they may be sent. At one moment
# the batch timer goes before the decision.
story late_timers_take_in_no_later_span: TWO_OR_THREE
post a 0 11.21+11.22+11.23+11.24 = reply a 200 -
post a 500 12.25 = reply a 200 -
post a 700 13.26 = reply a 200 -
post a 9000 14.27+13.28 = reply a 200 -
turn 999 = idle
turn 1000 = job a 1 11.21+11.22+11.23
turn 1499 = idle
turn 1500 = job a 2 11.24+12.25
turn 2699 = idle
turn 2700 = job a 3 13.26
report a 0 = report a accepted=8 undecided=1 pending=1 active=6
turn 9999 = idle
turn 10000 = worked a
answer a 10000 3 0 200 - - = done a
turn 10000 = job a 4 13.28
report a 0 = report a accepted=8 pending=1 active=6 exported=1

# Without a timer each group of spans leaves at once, in as many batches as its size asks for.
story without_a_timer_groups_leave_at_once: AT_MOST_THREE
post a 0 11.21+11.22+11.23+11.24 = reply a 200 -
post a 0 12.25 = reply a 200 -
turn 1000 = job a 1 11.21+11.22+11.23
turn 1000 = job a 2 11.24
turn 1000 = job a 3 12.25

# Neighbours of equal resources stand together in a batch, and tenants of equal resources have batches of their own.
story spans_leave_with_their_resources: BASE BASE
post a 0 1001:11.21/1001:11.22/1002:11.23/11.24/1001:11.25 = reply a 200 -
post b 0 1001:11.31/1002:12.32 = reply b 200 -
turn 1000 = job a 1 1001:11.21+11.22/1002:11.23/11.24/1001:11.25
turn 1000 = job b 1 1001:11.31
answer b 1000 1 0 200 - - = done b
turn 1000 = job b 2 1002:12.32
