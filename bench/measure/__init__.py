"""The parts of the program bench/run."""
