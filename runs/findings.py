"""What a script of this folder finds to be otherwise than it has to be."""


class Wrong(Exception):
    """A run is not as it has to be."""


def expect(fact, what):
    """Says what is wrong, where it isn't so."""
    if not fact:
        raise Wrong(what)
