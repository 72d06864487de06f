"""Histories, whole runs and scenes that were worked out by hand from the documents, with what they come to: of those in
scenes.py and command_scenes.py the whole program makes the runs too, in crates/world_runs."""
