"""What nbdcheck-record is made of."""
