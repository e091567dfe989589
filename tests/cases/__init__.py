"""The cases that the test programs are run on, one module per layer."""
