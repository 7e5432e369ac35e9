# Tenants that come and leave.

# A tenant comes, its spans are sent, and it leaves once it was drained and its back end has answered; its name is then that
# of another tenant, of the next number.
story a_name_is_had_twice: BASE BASE
add c BASE = added c 2
post c 0 11.41 = reply c 200 -
turn 1000 = job c 1 11.41
retire c 1000 = refused c 26
answer c 1000 1 0 200 - - = done c
drain c 1000 = done c
retire c 1000 = report c accepted=1 exported=1
add c BASE = added c 3
report c 0 = report c -
post c 0 11.42 = reply c 200 -
turn 999 = idle
turn 1000 = job c 1 11.42

# A name that stands is refused, and the number that it would have had is the next one's.
story a_name_that_stands_is_refused: BASE BASE
add a BASE = refused add 14
add c BASE = added c 2
add c BASE = refused add 14

# What was drained and waits for its back end stays, until it is refused there.
story a_tenant_of_the_settings_leaves: BASE BASE
post a 0 11.21 = reply a 200 -
post b 0 11.21 = reply b 200 -
drain a 1 = done a
retire a 1 = refused a 26
turn 1 = job a 1 11.21
retire a 1 = refused a 26
answer a 1 1 0 400 - - = done a
retire a 1 = report a accepted=1 back_end_refused=1
turn 1000 = job b 1 11.21
add a BASE = added a 2
drain a 2000 = done a
post a 2000 11.21 = reply a 503 120d7368757474696e6720646f776e
retire a 2000 = report a -

# Who comes to their shard changes nothing of what others are told.
story others_are_told_the_same: BASE BASE
add c BASE = added c 2
post a 0 11.21 = reply a 200 -
post b 0 11.31 = reply b 200 -
turn 1000 = job a 1 11.21
turn 1000 = job b 1 11.31
