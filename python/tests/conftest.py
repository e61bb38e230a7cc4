"""Has hypothesis keep nothing and wait for a slow machine."""
try:
    import hypothesis
except ImportError:
    pass
else:
    hypothesis.settings.register_profile("units", database=None, deadline=None)
    hypothesis.settings.load_profile("units")
