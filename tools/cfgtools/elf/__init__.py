"""What is in an ELF file, and the copy of it that has more in it."""
