"""The crates of this repository, and the programs that are built of them."""
