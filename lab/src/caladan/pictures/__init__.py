"""Pictures of runs, comparisons, sweeps and seeds, from the facts that the programs print as CSV. They need numpy and
matplotlib."""
