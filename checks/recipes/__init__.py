"""The recipes on stored inputs, and the stored runs of recipes/tests that are more than a few lines of sh."""
