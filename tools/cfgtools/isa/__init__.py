"""RISC-V instructions: their decoding, and sets of registers. It stands on nothing."""
