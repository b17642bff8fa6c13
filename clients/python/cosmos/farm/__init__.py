"""The farm: a list of faults, or the columns of a batch, run in pieces on Dask.

What comes out are the bytes of one run: `faults` and `batch` cut the work and put its output together, `work` runs one
piece where a worker is, `pool` hands the pieces to the workers, and `command` reads the command line.
"""
