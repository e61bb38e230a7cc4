"""The measurements of benches/, which are no part of the gate, and whether what they build fits the crates."""
