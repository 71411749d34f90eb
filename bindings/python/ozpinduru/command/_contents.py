"""What a book says, as JSON: its edition, the object of its parameters and the list of its offers, in one document; or apart, where
the edition stands with the parameters.

Names and units are the library's own. Every name stands there, with null for what is missing: a name that was left out or
misspelt is not taken for a missing value. Only an edition and a step may be left out, and are 1 then.
"""
import json
from dataclasses import asdict, fields
from typing import Any, NoReturn, Optional, TypeVar

from .. import Book, Offer, Parameters

Named = TypeVar("Named", Parameters, Offer)
_MAY_BE_MISSING = {"cost", "offset", "outage", "requirement", "margin", "price", "block"}
_MAY_BE_LEFT_OUT = {"step"}


class Unusable(Exception):
    """What is wrong with a text that should be JSON of contents."""


def parameters_text(book: Book) -> str:
    """The parameters, with the edition before them."""
    return json.dumps({"edition": book.edition, **asdict(book.parameters)}) + "\n"


def offers_text(book: Book, indent: str = "") -> str:
    """The list of offers, a line for each."""
    lines = ",\n".join(f"{indent}  {json.dumps(asdict(offer))}" for offer in book.offers)
    return f"[\n{lines}\n{indent}]\n" if lines else "[]\n"


def document_text(book: Book) -> str:
    parameters, offers = json.dumps(asdict(book.parameters)), offers_text(book, "  ").rstrip()
    return f'{{\n  "edition": {book.edition},\n  "parameters": {parameters},\n  "offers": {offers}\n}}\n'


def parsed(data: bytes) -> Any:
    """The value of a text, in which no name may stand twice and no number may have a fraction."""
    try:
        return json.loads(data, object_pairs_hook=_once, parse_float=_no_number, parse_constant=_no_number)
    except (ValueError, RecursionError) as error:
        raise Unusable(f"no JSON of a book: {error}") from error


def _once(pairs: list[tuple[str, Any]]) -> dict[str, Any]:
    named = dict(pairs)
    if len(named) < len(pairs):
        raise ValueError("a name stands twice in one object: " + ", ".join(name for name, _ in pairs))
    return named


def _no_number(text: str) -> NoReturn:
    raise ValueError(f"{text} is no whole number")


def parameters_of(value: Any) -> tuple[Parameters, Optional[int]]:
    """Parameters, and the edition that may stand with them."""
    edition, rest = _edition(value)
    return _made(Parameters, rest, "the parameters"), edition


def _edition(value: Any) -> tuple[Optional[int], Any]:
    """The edition that an object says, if it does, and what else stands there."""
    if not isinstance(value, dict) or "edition" not in value:
        return None, value
    if type(value["edition"]) is not int:
        raise Unusable("'edition' is no whole number")
    return value["edition"], {name: value[name] for name in value if name != "edition"}


def offers_of(value: Any) -> list[Offer]:
    if not isinstance(value, list):
        raise Unusable("the offers are no list")
    return [_made(Offer, offer, f"offer {at}") for at, offer in enumerate(value)]


def document_of(value: Any) -> tuple[Parameters, list[Offer], Optional[int]]:
    """What a document says; its edition may be left out."""
    edition, rest = _edition(value)
    if not isinstance(rest, dict) or set(rest) != {"parameters", "offers"}:
        raise Unusable('no object of "parameters" and "offers"; a list of offers alone goes with --parameters')
    return _made(Parameters, rest["parameters"], "the parameters"), offers_of(rest["offers"]), edition


def _made(kind: type[Named], value: Any, what: str) -> Named:
    """Parameters or an offer, from an object with each of its names and no other."""
    names = [field.name for field in fields(kind)]
    if not isinstance(value, dict):
        raise Unusable(f"{what} should be an object")
    for name in names:
        if name not in value:
            if name in _MAY_BE_LEFT_OUT:
                continue
            raise Unusable(f"{what}: there is no {name!r}; null says that a value is missing")
        number = value[name]
        if not (type(number) is int or number is None and name in _MAY_BE_MISSING):
            raise Unusable(f"{what}: {name!r} is no whole number" + (" and no null" if name in _MAY_BE_MISSING else ""))
    unknown = sorted(set(value) - set(names))
    if unknown:
        raise Unusable(f"{what}: {unknown[0]!r} is none of {', '.join(names)}")
    return kind(**value)
