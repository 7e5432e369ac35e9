# When rows are decided, by what, and what becomes of spans that come after.

# A row is decided a second after it opened, with all spans of its trace that came by then; spans that come after,
# also at that very moment, leave alone.
story a_row_is_decided_when_its_wait_is_over: TWO_SENT BASE
post a 0 11.21 = reply a 200 -
post a 400 12.22+11.23 = reply a 200 -
turn 999 = idle
turn 1000 = job a 1 11.21+11.23
turn 1399 = idle
turn 1400 = job a 2 12.22
post a 1400 11.24+12.25 = reply a 200 -
report a 1400 = report a accepted=5 queued=2 active=3
turn 1400 = idle
answer a 1400 2 0 200 - - = done a
turn 1400 = job a 3 11.24
answer a 1400 1 0 200 - - = done a
turn 1400 = job a 4 12.25
report a 1400 = report a accepted=5 active=2 exported=3

# A step that comes long after runs the decision first, as of its own moment, and what it brings is late.
story a_decision_takes_in_no_later_span: TWO_SENT
post a 0 11.21 = reply a 200 -
post a 5000 11.22+12.23 = reply a 200 -
turn 999 = idle
turn 1000 = job a 1 11.21
turn 4999 = idle
turn 5000 = job a 2 11.22
turn 5999 = idle
answer a 5000 1 0 200 - - = done a
turn 6000 = job a 3 12.23

# A trace is sampled by all its spans that came in time and by their resources, whichever post brought them; no other
# tenant's span counts, nor does a late one.
story verdicts_are_of_all_spans_in_time: BOTH BOTH
post a 0 11.21.7a021802 = reply a 200 -
post a 0 12.22.7a021802 = reply a 200 -
post a 0 13.23.4a080a016b12030a0176 = reply a 200 -
post a 0 0a080a016b12030a0176:14.24.7a021802 = reply a 200 -
post b 0 12.25.4a080a016b12030a0176 = reply b 200 -
post a 999 11.26.4a080a016b12030a0176 = reply a 200 -
post a 1000 12.27.4a080a016b12030a0176 = reply a 200 -
turn 1000 = job a 1 11.21.7a021802+11.26.4a080a016b12030a0176
turn 1000 = job a 2 0a080a016b12030a0176:14.24.7a021802
turn 1000 = worked b
turn 1000 = idle
report a 1000 = report a accepted=6 active=3 not_sampled=3
report b 1000 = report b accepted=1 not_sampled=1

# A trace lasts from its earliest start to its latest end, over all posts: here 10 to 15 milliseconds, and a
# nanosecond less.
story a_trace_lasts_over_several_posts: LONG
post a 0 11.21.398096980000000000418096980000000000 = reply a 200 -
post a 0 12.22.398096980000000000418096980000000000 = reply a 200 -
post a 1 11.23.39c0e1e4000000000041c0e1e40000000000 = reply a 200 -
post a 1 12.24.39bfe1e4000000000041bfe1e40000000000 = reply a 200 -
turn 1000 = job a 1 11.21.398096980000000000418096980000000000+11.23.39c0e1e4000000000041c0e1e40000000000
report a 1000 = report a accepted=4 active=2 not_sampled=2

# Spans of one post join each their own trace's row, however traces alternate, and are noted there: 11 has its error and
# its attribute in spans that are parted by one of 12, which has an error alone, 13 has them in two that follow each other.
story spans_of_a_post_join_the_rows_of_their_traces: BOTH
post a 0 11.21.7a021802+11.22+12.23.7a021802/11.24.4a080a016b12030a0176+12.25/13.26.7a021802+13.27.4a080a016b12030a0176+13.28 = reply a 200 -
turn 1000 = job a 1 11.21.7a021802+11.22+11.24.4a080a016b12030a0176
turn 1000 = job a 2 13.26.7a021802+13.27.4a080a016b12030a0176+13.28
turn 1000 = idle
report a 1000 = report a accepted=8 active=6 not_sampled=2

# Spans of one post that come late leave alone, and those that come before and after them wait together.
story late_spans_leave_between_others: TEN_SENT
post a 0 11.21 = reply a 200 -
post a 400 12.22 = reply a 200 -
turn 1000 = job a 1 11.21
post a 1000 12.23+11.24+11.25+12.26 = reply a 200 -
turn 1000 = job a 2 11.24
turn 1000 = job a 3 11.25
turn 1399 = idle
turn 1400 = job a 4 12.22+12.23+12.26
