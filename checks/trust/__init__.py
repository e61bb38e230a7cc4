"""The definitions that promises rest on, and the page that lists them."""
