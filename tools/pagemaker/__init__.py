"""What `tools/page` is made of."""
