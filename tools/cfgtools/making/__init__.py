"""ELF files that are made for tests and measurements. It stands on nothing."""
