# What back ends' answers make of batches.

# A batch that was taken in part isn't sent again, and neither is one whose answer says nothing that can be read, nor
# one that was refused.
story batches_that_were_answered_for_good_are_gone: TEN_SENT
post a 0 11.21+11.22+12.23+12.24 = reply a 200 -
post a 0 13.25+13.26+14.27+14.28 = reply a 200 -
turn 1000 = job a 1 11.21+11.22
turn 1000 = job a 2 12.23+12.24
turn 1000 = job a 3 13.25+13.26
turn 1000 = job a 4 14.27+14.28
answer a 1000 1 0 200 - 0a020801 = done a
answer a 1000 1 0 200 - - = refused a 21
answer a 1000 2 0 299 - 0a020809 = done a
answer a 1000 3 0 202 - ff = done a
answer a 1000 4 0 200 - 0a0b08ffffffffffffffffff01 = done a
report a 1000 = report a accepted=8 exported=5 back_end_rejected=3
post a 1000 15.31+16.32+17.33+18.34 = reply a 200 -
turn 2000 = job a 5 15.31
turn 2000 = job a 6 16.32
turn 2000 = job a 7 17.33
turn 2000 = job a 8 18.34
answer a 2000 5 0 400 - - = done a
answer a 2000 6 0 301 40 - = done a
answer a 2000 7 0 101 - - = done a
answer a 2000 8 0 500 - 0a020801 = done a
report a 2000 = report a accepted=12 exported=5 back_end_refused=4 back_end_rejected=3
turn 999999999 = idle

# Tickets are each tenant's own. An answer to another one's ticket changes nothing but the tenant's clock.
story tickets_are_their_tenants_own: BASE BASE
post a 0 11.21 = reply a 200 -
post b 0 11.31 = reply b 200 -
turn 1000 = job a 1 11.21
turn 1000 = job b 1 11.31
post b 1000 12.32 = reply b 200 -
turn 2000 = worked b
answer b 2000 1 0 200 - - = done b
turn 2000 = job b 2 12.32
answer a 1500 2 0 200 - - = refused a 21
answer a 1500 0 0 200 - - = refused a 21
post a 1200 12.22 = reply a 200 -
report a 0 = report a accepted=2 undecided=1 active=1
answer b 2000 2 0 200 - - = done b
turn 2499 = idle
turn 2500 = worked a
answer a 2500 1 0 200 - - = done a
turn 2500 = job a 2 12.22
