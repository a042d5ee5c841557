"""The parts of tools/wrong, which tries many wrong bodies (mutants) in one check of the prover."""
