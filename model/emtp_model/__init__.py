"""A second program of the whole behaviour, written from its description and apart from the definitions in specs/.

Whole numbers of any size; every matrix is made anew at every step and eliminated from its first row.
"""
