"""What a run of a program went through: in a simulator, or as `cfg_walk` prints it."""
