"""What ./check and ./run are made of: proofs, tests, edits and programs of the crates, over the work of earlier runs."""
