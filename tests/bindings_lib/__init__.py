"""What tests/bindings is made of: a module for each thing that is tested."""
