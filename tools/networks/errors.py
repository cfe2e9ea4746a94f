"""What the tool refuses: a place and one sentence."""

import difflib


class Refused(Exception):
    """An input that is refused: where, and why."""

    def __init__(self, place, sentence):
        super().__init__(f"{place}: {sentence}" if place else sentence)
        self.place, self.sentence = place, sentence


class Lacking(Exception):
    """A package or a program that is not installed."""


def meant(word, known):
    """A question about the known word that is nearest, or nothing."""
    near = difflib.get_close_matches(word, list(known), 1, 0.5)
    return f'; did you mean "{near[0]}"?' if near else ""


def unknown(place, key, what, word, known):
    """The refusal of a key that names nothing that is known."""
    return Refused(place(key), f'key "{key}": there is no {what} {shown(word)}{meant(word, known)}')


def shown(word, most=40):
    """A word of the input in quotes, cut where it is long, with nothing that a terminal would act on."""
    text = str(word)
    text = text if len(text) <= most else text[:most] + ".."
    return '"' + "".join(letter if letter.isprintable() else "?" for letter in text) + '"'
