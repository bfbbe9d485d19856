"""What other tools say of a file, and other methods than that of `cfg`; and certificates by these."""
