"""The parts of bench/counts."""
