"""The checks of this repository, and what makes parts of its pages. Nothing of it is installed."""
