"""The parts of tests/packages."""
