"""Makes the C library: of what the toolchain proved, or of the WebAssembly module of the proved program."""
