"""The form of the Python here: of what people run in python/, and of what builds, releases and checks it."""
