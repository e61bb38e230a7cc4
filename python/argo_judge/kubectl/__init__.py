"""The plugin of kubectl, and what it reads of a cluster."""
