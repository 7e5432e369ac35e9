# What becomes of the traces of one tenant.

# one post
story traces_wait_for_their_decision_1: ALWAYS
turn 999999 = idle
post a 1000000 11.21 = reply a 200 -
turn 1000999 = idle
turn 1001000 = job a 1 11.21
turn 1001000 = idle

# two traces at one moment
story traces_wait_for_their_decision_2: ALWAYS
post a 5 12.23 = reply a 200 -
post a 5 11.21 = reply a 200 -
turn 1004 = idle
turn 1005 = job a 1 12.23
turn 1005 = job a 2 11.21
turn 1005 = idle

# a moment that is past
story traces_wait_for_their_decision_3: ALWAYS
post a 5000 11.21 = reply a 200 -
# It opens its row at 5000.
post a 100 12.23 = reply a 200 -
turn 1100 = idle
turn 6000 = job a 1 11.21
# Late, since the clock stands at 6000.
post a 0 11.22 = reply a 200 -
turn 5999 = idle
turn 6000 = job a 2 12.23
turn 6000 = job a 3 11.22

# a moment above the latest
story traces_wait_for_their_decision_4: ALWAYS
post a 0 11.21 = reply a 200 -
# It is taken as 2^62, so that its row, which opens then, is never due.
post a 9999999999999999999 12.23 = reply a 200 -
turn 4611686018427387904 = job a 1 11.21
turn 9999999999999999999 = idle
post a 9999999999999999999 11.22 = reply a 200 -
turn 4611686018427387904 = job a 2 11.22
turn 9999999999999999999 = idle

# before and at the decision
story late_spans_leave_alone_1: ALWAYS
post a 0 11.21 = reply a 200 -
post a 999 11.22 = reply a 200 -
post a 1000 11.22 = reply a 200 -
turn 1000 = job a 1 11.21+11.22
turn 1000 = job a 2 11.22
turn 5000 = idle

# long after the decision
story late_spans_leave_alone_2: ALWAYS
post a 0 11.21 = reply a 200 -
post a 999 11.22 = reply a 200 -
# Its row was decided a moment before, and this post found that out.
post a 5000 11.22 = reply a 200 -
# A moment that is past counts as the latest one.
post a 100 12.23 = reply a 200 -
turn 999 = idle
turn 5000 = job a 1 11.21+11.22
turn 5000 = job a 2 11.22
turn 5999 = idle
turn 6000 = job a 3 12.23

# before a later decision
story late_spans_leave_alone_3: ALWAYS
post a 0 11.21 = reply a 200 -
post a 500 12.23 = reply a 200 -
post a 1499 11.22 = reply a 200 -
turn 1500 = job a 1 11.21
turn 1500 = job a 2 11.22
turn 1500 = job a 3 12.23
turn 1500 = idle

# a trace id of zeros, a span id of zeros and none
story invalid_spans_are_left_out_1: ALWAYS
post a 0 no_ids = reply a 200 0a260803122272656a65637465643a203320696e76616c69642c2030206f76657220627564676574
turn 1000 = idle
post a 1500 11.21 = reply a 200 -
turn 2499 = idle
turn 2500 = job a 1 11.21

# a trace id of 15 bytes
story invalid_spans_are_left_out_2: ALWAYS
post a 0 short_trace_id = reply a 200 0a260801122272656a65637465643a203120696e76616c69642c2030206f76657220627564676574
turn 1000 = job a 1 11.21
turn 1000 = idle

# A resource twice, which merges.
story bodies_leave_as_canonical_text_1: ALWAYS
post a 0 resource_twice = reply a 200 -
turn 1000 = job a 1 0a080a016b12030a01760a080a016d12030a0177:11.21

# A length in two bytes, then a group that isn't known, then the trace id.
story bodies_leave_as_canonical_text_2: ALWAYS
post a 0 disordered = reply a 200 -
turn 1000 = job a 1 11.21.a3010805a401

# A kind of -1.
story bodies_leave_as_canonical_text_3: ALWAYS
post a 0 11.21.30ffffffffffffffffff01 = reply a 200 -
turn 1000 = job a 1 11.21.30ffffffffffffffffff01

story bodies_leave_as_canonical_text_4: ALWAYS
post a 0 11.21.30ffffffff0f = reply a 200 -
turn 1000 = job a 1 11.21.30ffffffffffffffffff01

# A field that isn't known, with a number longer than it has to be.
story bodies_leave_as_canonical_text_5: ALWAYS
post a 0 11.21.a8018100 = reply a 200 -
turn 1000 = job a 1 11.21.a8018100

story bodies_leave_as_canonical_text_6: ALWAYS
post a 0 11.21.2801 = reply a 200 -
turn 1000 = job a 1 11.21.2801

# Beside the scope spans it isn't kept.
story bodies_leave_as_canonical_text_7: ALWAYS
post a 0 field_beside = reply a 200 -
turn 1000 = job a 1 11.21

story neighbours_share_their_resource_and_scope_1: ALWAYS
post a 0 schema_alone = reply a 200 -
turn 1000 = job a 1 schema_alone

story neighbours_share_their_resource_and_scope_2: ALWAYS
post a 0 1005:11.21 = reply a 200 -
post a 0 1005:11.22 = reply a 200 -
post a 0 third_with_schema = reply a 200 -
turn 1000 = job a 1 by_schema
turn 1000 = idle

# A missing resource is not an empty one.
story neighbours_share_their_resource_and_scope_3: ALWAYS
post a 0 11.21 = reply a 200 -
post a 0 of_empty_resource = reply a 200 -
turn 1000 = job a 1 of_no_and_empty_resource

# Each is the first resource of its post.
story neighbours_share_their_resource_and_scope_4: ALWAYS
post a 0 1005:11.21 = reply a 200 -
post a 0 1006:11.22 = reply a 200 -
turn 1000 = job a 1 1005:11.21/1006:11.22

# One resource twice in a post.
story neighbours_share_their_resource_and_scope_5: ALWAYS
post a 0 1005:11.21/1005:11.22 = reply a 200 -
turn 1000 = job a 1 1005:11.21+11.22

story neighbours_share_their_resource_and_scope_6: ALWAYS
post a 0 of_scope = reply a 200 -
post a 0 second_of_scope = reply a 200 -
post a 0 of_other_scope = reply a 200 -
turn 1000 = job a 1 by_scope

story only_sampled_traces_leave_1: ONLY_ERRORS
post a 0 12.23 = reply a 200 -
post a 0 11.21.7a021802 = reply a 200 -
post a 1 11.22 = reply a 200 -
# A span of the trace without an error comes late, and then one of the other trace.
post a 1000 12.23 = reply a 200 -
post a 1000 11.22 = reply a 200 -
turn 1000 = job a 1 11.21.7a021802+11.22
turn 1000 = job a 2 11.22
turn 1000 = idle

# an error just in time
story only_sampled_traces_leave_2: ONLY_ERRORS
post a 0 11.21 = reply a 200 -
post a 0 12.23 = reply a 200 -
post a 999 11.22.7a021802 = reply a 200 -
post a 1000 12.23 = reply a 200 -
post a 1000 11.22 = reply a 200 -
turn 1000 = job a 1 11.21+11.22.7a021802
turn 1000 = job a 2 11.22
turn 5000 = idle

# no error
story only_sampled_traces_leave_3: ONLY_ERRORS
post a 0 11.21 = reply a 200 -
turn 999 = idle
turn 1000 = worked a
turn 1000 = idle

# an error that comes late
story only_sampled_traces_leave_4: ONLY_ERRORS
post a 0 11.21 = reply a 200 -
post a 1000 11.22.7a021802 = reply a 200 -
turn 1000 = idle
turn 5000 = idle

story a_trace_lasts_from_its_first_start_to_its_last_end_1: LONG_ALONE
post a 0 11.21.3940420f00000000004180841e0000000000 = reply a 200 -
post a 1 11.22.39404b4c000000000041808d5b0000000000 = reply a 200 -
turn 1000 = job a 1 11.21.3940420f00000000004180841e0000000000+11.22.39404b4c000000000041808d5b0000000000

# One of them alone lasts 1 ms.
story a_trace_lasts_from_its_first_start_to_its_last_end_2: LONG_ALONE
post a 0 11.21.3940420f00000000004180841e0000000000 = reply a 200 -
turn 1000 = worked a
