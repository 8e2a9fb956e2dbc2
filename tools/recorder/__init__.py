"""Records a program's stores to persistent memory as a CSV: `tools/record`."""
