# refused 1 at 0 opened 0
:
