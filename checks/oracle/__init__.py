"""The rules of docs/, read a second time: plain Python that knows nothing of the crates. Each rule is here once."""
