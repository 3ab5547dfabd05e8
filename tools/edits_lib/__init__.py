"""The parts of tools/edits."""
