# too large for this program
cat tests/caches/farm.cache
head -c $((65537 - 126)) /dev/zero
