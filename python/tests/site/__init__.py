"""The site of ./web: its modules, its scripts and its pages."""
