"""The recipes with a real Prometheus and a real kubectl."""
