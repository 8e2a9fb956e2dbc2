"""What `tools/portable` and `tools/module` are made of: WebAssembly, its translation into C, and the digest of the sources."""
