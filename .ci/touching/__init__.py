"""What a change touches: the crates to prove and the must-fail edits to try."""
