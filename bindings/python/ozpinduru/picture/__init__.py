"""The picture of a book: its supply stack against the requirement curve."""
from ._chart import chart

__all__ = ["chart"]
