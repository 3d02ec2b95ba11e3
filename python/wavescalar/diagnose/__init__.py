"""What refusals mean, and all faults of an assembly at once: docs/REFUSALS.md, docs/BACKEND.md."""
