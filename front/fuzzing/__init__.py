"""Random and damaged input for the front ends. Each module but `cases` has `run(seconds, seed)`, which returns how many cases it tried, and
raises AssertionError for the first one that fails."""
