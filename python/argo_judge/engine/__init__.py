"""The engine: how it is started, and what is read of what it writes."""
