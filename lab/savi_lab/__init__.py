"""The parts of lab/lab."""
