"""Random cases for the program and its model: valid ones, spoiled ones, and some of single subjects."""
