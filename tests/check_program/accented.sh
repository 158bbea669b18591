# accepted 3 icons 2 directories longest 2
cat tests/caches/accented.cache
