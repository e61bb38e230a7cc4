"""How a second reading writes a refusal: its name, and the numbers in brackets after it."""


class Refused(Exception):
    """The first refusal of an input: a name and numbers or further refusals, as `Unexpected(8)`."""

    def __init__(self, name, *details):
        super().__init__(name, *details)
        self.name = name
        self.details = details

    def __str__(self):
        return f'{self.name}({", ".join(str(detail) for detail in self.details)})' if self.details else self.name
