// Made by tools/page from python/pmem/settings.py: change that, and run tools/page.

// For each option its default (`is`), and its values: a few `values`; or numbers, the least (`from`) and the `most`; or the least and the
// greatest number of hex `digits`.
export const OPTION = {
  "levels": {"is": 2, "from": 1, "most": 6},
  "sets": {"is": 4, "from": 1, "most": 64},
  "ways": {"is": 2, "from": 1, "most": 8},
  "loss": {"is": 4, "values": [1, 2, 4, 8, 16]},
  "major": {"is": "0", "from": "0", "most": "18446744073709551615"},
  "suite": {"is": "aes", "values": ["aes", "weak", "blur"]},
  "key": {"is": "", "digits": [32, 32]},
  "tag-key": {"is": "", "digits": [2, 128]},
  "every": {"is": 100, "from": 1, "most": 1000000},
  "persist": {"is": 0, "from": 0, "most": 7},
  "shadow": {"is": "on", "values": ["on", "off"]},
  "queue": {"is": "volatile", "values": ["volatile", "durable"]},
  "combine": {"is": "off", "values": ["off", "on"]},
};

// The options that each machine takes.
export const OPTIONS = {
  run: ["levels", "sets", "ways", "loss", "major", "suite", "key", "tag-key", "persist", "shadow", "queue", "combine"],
  wear: ["levels", "sets", "ways", "loss", "major", "suite", "key", "tag-key", "every", "persist", "shadow"],
  txn: ["levels", "sets", "ways", "loss", "major", "suite", "key", "tag-key", "persist", "shadow"],
  tree: ["levels", "sets", "suite", "key", "tag-key"],
};
