# accepted 3 icons 2 directories longest 2
cat tests/caches/farm.cache
head -c $((65536 - 126)) /dev/zero
