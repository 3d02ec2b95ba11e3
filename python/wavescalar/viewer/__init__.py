"""Pages that show a run step by step, profiles, and sweeps over jobs and options: docs/VIEWER.md, docs/EXPERIMENTS.md."""
