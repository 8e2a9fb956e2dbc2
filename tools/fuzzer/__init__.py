"""tools/fuzz: builds the drivers of this folder with sanitizers, and runs them."""
