"""JSON pointers, by which a finding or a test says where in an object it is."""


def pointer_to(*names: str | int) -> str:
    """The JSON pointer of what is under names and indexes."""
    return "".join("/" + str(name).replace("~", "~0").replace("/", "~1") for name in names)


def names_of(pointer: str) -> list[str]:
    """The names and indexes of a pointer."""
    return [name.replace("~1", "/").replace("~0", "~") for name in pointer.split("/")[1:]]
