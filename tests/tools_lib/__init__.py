"""The tests that tests/tools runs, by what they are about."""
