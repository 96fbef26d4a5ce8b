"""What the program has to answer, worked out from docs/FORMAT.md, date by date and without any cleverness.

It shares nothing with the program. Where a rule speaks of each date, each date is looked at, and each record for it.
"""
