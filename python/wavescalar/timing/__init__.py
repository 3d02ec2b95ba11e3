"""A timing model of WaveScalar machines, whose events `wsc replay` verifies: docs/TIMING.md."""
