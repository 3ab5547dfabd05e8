"""What tests/accuracy is made of."""
