"""What a report of `cfg` says, and the graph that it has. It stands on nothing."""
