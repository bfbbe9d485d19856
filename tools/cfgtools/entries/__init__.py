"""Where `tools/add_entries` finds entries and jump tables that `cfg` does not find."""
