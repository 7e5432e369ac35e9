# Steps and timers of one moment, of the last moment, and turns that find nothing to do.

# A turn goes to the tenant that is ready first, and at one moment to the lower number, whoever came first.
story of_one_moment_the_lower_number_goes_first: BASE BASE BASE
post c 0 11.21 = reply c 200 -
post b 0 11.22 = reply b 200 -
post a 1 11.23 = reply a 200 -
turn 1001 = job b 1 11.22
turn 1001 = job c 1 11.21
turn 1000 = idle
turn 1001 = job a 1 11.23
answer c 1001 1 0 200 - - = done c
answer a 1001 1 0 200 - - = done a
post a 2000 12.24 = reply a 200 -
post c 1999 12.25 = reply c 200 -
turn 3000 = job c 2 12.25
turn 3000 = job a 2 12.24
turn 3000 = idle

# Later moments are taken as 2^62, at which timers run that are due then, and none that are due after.
story no_moment_is_later_than_the_last: BASE BASE
post a 4611686018427387904 11.21 = reply a 200 -
post a 9999999999999999999 11.22 = reply a 200 -
post b 4611686018427386904 11.31 = reply b 200 -
turn 4611686018427387903 = idle
turn 9999999999999999999 = job b 1 11.31
turn 9999999999999999999 = idle
report a 9999999999999999999 = report a accepted=2 undecided=2
drain a 0 = done a
turn 4611686018427387903 = idle
turn 4611686018427387904 = job a 1 11.21+11.22
answer a 0 1 0 503 - - = done a
turn 9999999999999999999 = idle
report a 0 = report a accepted=2 active=2

# A turn that finds nothing to do changes nothing, and moves no clock.
story idle_turns_change_nothing: BASE BASE
turn 0 = idle
turn 9999999999999999999 = idle
report a 0 = report a -
post a 0 11.21 = reply a 200 -
turn 999 = idle
post a 500 12.22 = reply a 200 -
turn 1000 = job a 1 11.21
turn 1000 = idle
turn 1499 = idle
turn 1500 = worked a
turn 1500 = idle
turn 9999999999999999999 = idle
post b 0 11.31 = reply b 200 -
turn 999 = idle
report a 0 = report a accepted=2 queued=1 active=1
report b 0 = report b accepted=1 undecided=1
