"""The site of ./web: the tool chain in a page."""
