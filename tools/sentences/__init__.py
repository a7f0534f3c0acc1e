"""Denkumari's sentences (crates/says*/specs), read as they stand and run. docs/RUNNING-SENTENCES.md says how."""
