"""The tests of the package, by pytest: `.ci/checks/python`."""
