# refused 16 at 100 opened 0
sh tests/patched.sh 108 '..'
