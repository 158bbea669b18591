# too large for this program
head -c 1000000 /dev/zero
