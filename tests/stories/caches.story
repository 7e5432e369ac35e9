# What becomes of spans whose trace's row has left, where caches remember its decision and where none does.

# At 1500 the row of trace 11 has left, and its decision is remembered: the span follows it. The decision of trace 12, at 2000,
# takes the cache's one place, so the last span opens a row.
story spans_follow_a_decision_that_is_remembered: ONE_SAMPLED
post a 0 11.21 = reply a 200 -
post a 1000 12.22 = reply a 200 -
post a 1500 11.23 = reply a 200 -
report a 1500 = report a accepted=3 undecided=1 queued=2
post a 2100 11.24 = reply a 200 -
report a 2100 = report a accepted=4 undecided=1 queued=3
turn 2100 = job a 1 11.21
answer a 2100 1 0 200 - - = done a
turn 2100 = job a 2 11.23
answer a 2100 2 0 200 - - = done a
turn 2100 = job a 3 12.22

# Without caches the span opens a row, for which that of trace 12 has to go.
story nothing_is_remembered_without_caches: ONE_TRACE
post a 0 11.21 = reply a 200 -
post a 1000 12.22 = reply a 200 -
post a 1500 11.23 = reply a 200 -
report a 1500 = report a accepted=3 undecided=1 queued=1 too_early=1

# A trace that wasn't sampled is remembered by the other cache.
story spans_follow_a_trace_that_was_dropped: ONE_DROPPED
post a 0 11.21 = reply a 200 -
post a 1000 12.22 = reply a 200 -
post a 1500 11.23 = reply a 200 -
report a 1500 = report a accepted=3 undecided=1 not_sampled=2

# Each cache has places of its own: 11 was sampled, 12 was not, and both are remembered.
story each_verdict_has_its_own_places: ONE_OF_EACH
post a 0 11.21.7a021802 = reply a 200 -
post a 1000 12.22 = reply a 200 -
post a 2000 13.23 = reply a 200 -
post a 2100 11.24 = reply a 200 -
post a 2200 12.25 = reply a 200 -
report a 2200 = report a accepted=5 undecided=1 queued=2 not_sampled=2

# A span that follows a decision makes it the last to be forgotten: at 3000 trace 13 takes the place of 12 and not of 11.
story a_decision_that_is_asked_for_stays: TWO_SAMPLED
post a 0 11.21 = reply a 200 -
post a 1000 12.22 = reply a 200 -
post a 2000 13.23 = reply a 200 -
post a 2500 11.24 = reply a 200 -
post a 3000 14.25 = reply a 200 -
post a 3500 12.26 = reply a 200 -
post a 3600 11.27 = reply a 200 -
report a 3600 = report a accepted=7 undecided=1 queued=5 too_early=1

# While its row is present a trace isn't looked up, so 11 is forgotten before 12, though a span of it came later.
story a_row_that_is_present_is_not_looked_up: TWO_ROWS_SAMPLED
post a 0 11.21 = reply a 200 -
post a 0 12.22 = reply a 200 -
post a 1500 11.23 = reply a 200 -
post a 2000 13.24 = reply a 200 -
post a 3500 11.25 = reply a 200 -
report a 3500 = report a accepted=5 undecided=1 queued=4
post a 3600 12.26 = reply a 200 -
report a 3600 = report a accepted=6 undecided=1 queued=5

# What is due at a moment is decided before that moment's spans come: the post brings the row that takes the place of 11's,
# and a span that follows its decision.
story decisions_come_before_the_spans_of_their_moment: ONE_SAMPLED
post a 0 11.21 = reply a 200 -
post a 1000 12.22+11.23 = reply a 200 -
report a 1000 = report a accepted=3 undecided=1 queued=2

# A trace that left undecided is not remembered.
story a_row_that_left_too_early_is_not_remembered: ONE_SAMPLED
post a 0 11.21 = reply a 200 -
post a 500 12.22 = reply a 200 -
post a 600 11.23 = reply a 200 -
report a 600 = report a accepted=3 undecided=1 too_early=2

# Tenants remember each its own traces: neither knows what the other decided, nor takes its places.
story tenants_remember_each_its_own: ONE_SAMPLED ONE_SAMPLED
post a 0 11.21 = reply a 200 -
post b 0 13.31 = reply b 200 -
post a 1000 12.22 = reply a 200 -
post b 1000 14.32 = reply b 200 -
post b 1400 11.33 = reply b 200 -
post a 1500 11.23 = reply a 200 -
report a 1500 = report a accepted=3 undecided=1 queued=2
report b 1500 = report b accepted=3 undecided=1 queued=1 too_early=1

# Each span that follows a decision is a group of its own, whatever came with it: at 1500 the first one waits for a batch, at
# 1600 two more fill one, and the timer of the last begins.
story spans_that_follow_a_decision_wait_for_a_batch: TWO_FILL_SAMPLED
post a 0 11.21+11.22 = reply a 200 -
post a 1000 12.23 = reply a 200 -
post a 1500 11.24 = reply a 200 -
report a 1500 = report a accepted=4 undecided=1 pending=1 queued=2
post a 1600 11.25+11.26+11.27 = reply a 200 -
report a 1600 = report a accepted=7 undecided=1 queued=6
post a 1700 11.28 = reply a 200 -
turn 1700 = job a 1 11.21+11.22
answer a 1700 1 0 200 - - = done a
turn 1700 = job a 2 11.24+11.25
answer a 1700 2 0 200 - - = done a
turn 1700 = job a 3 11.26+11.27
answer a 1700 3 0 200 - - = done a
turn 1999 = idle
turn 2000 = job a 4 11.28+12.23

# A span for which there is no room isn't looked up: it follows nothing, and its decision is no less forgotten first. At 3000
# that of 13 takes the place of 11, whose span was refused at 2500, and 12 is still remembered.
story a_span_without_room_follows_nothing: ONE_SPAN_TWO_SAMPLED
post a 0 11.21 = reply a 200 -
post a 1000 12.22 = reply a 200 -
post a 2000 13.23 = reply a 200 -
post a 2500 11.24 = reply a 429 12157370616e2062756467657420657868617573746564
report a 2500 = report a accepted=3 undecided=1 queued=2
post a 3000 12.25+14.26 = reply a 200 -
report a 3000 = report a accepted=5 undecided=1 queued=4

# Several spans of a post follow decisions one after the other, and the last one asked for is forgotten last: 13 takes the
# place of 12.
story spans_of_a_post_follow_decisions_in_order: TWO_SAMPLED
post a 0 11.21 = reply a 200 -
post a 1000 12.22 = reply a 200 -
post a 2000 13.23 = reply a 200 -
post a 2500 11.24+12.25+11.26 = reply a 200 -
report a 2500 = report a accepted=6 undecided=1 queued=5
post a 3000 14.27 = reply a 200 -
post a 3100 11.28 = reply a 200 -
post a 3200 12.29 = reply a 200 -
report a 3200 = report a accepted=9 undecided=1 queued=7 too_early=1

# What comes after a drain is refused, be its trace remembered or not.
story a_drained_tenant_follows_no_decision: ONE_SAMPLED
post a 0 11.21 = reply a 200 -
post a 1000 12.22 = reply a 200 -
drain a 1500 = done a
post a 1600 11.23 = reply a 503 120d7368757474696e6720646f776e
report a 1600 = report a accepted=2 queued=2
