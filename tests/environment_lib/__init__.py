"""The parts of tests/environment."""
