# The cradle: the scanner is interrupted in its loop, and a spare of another scheme, with other delays and another
# capacity, goes on with the job.
scanner 3 2 4 5 3 4
spare 1 1 3 7 2 8
program 0x11000000 0x12000005 0x13000001 0x21120000 0x32230000 0xb0200003 0x90010000 0x00000000
data 0x00000000
interrupt 12
