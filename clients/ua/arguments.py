"""What reads the arguments of a command line, and says what is wrong with them."""
import argparse

from .types import NodeId, time_of_text


def checked(read):
    """A reader whose ValueError is told as it is."""
    def one(text):
        try:
            return read(text)
        except ValueError as error:
            raise argparse.ArgumentTypeError(str(error)) from None
    return one


def number(kind, low, high=2**32 - 1):
    """What reads a number of this range; `kind` is int or float."""
    def one(text):
        try:
            value = kind(text)
        except ValueError:
            value = None
        if value is None or not low <= value <= high:
            raise ValueError(f'{text!r} is no {"whole " * (kind is int)}number from {low} to {high}')
        return value
    return checked(one)


node = checked(NodeId.of_text)
moment = checked(time_of_text)
