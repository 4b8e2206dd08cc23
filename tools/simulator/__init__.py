"""The hub in Python, with agents on simulated threads: for tools/play and tests/soak."""
