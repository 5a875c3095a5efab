"""Named tuples that are written as those of `typing`, which takes long to import."""

from __future__ import annotations

from collections import namedtuple

TYPE_CHECKING = False
if TYPE_CHECKING:
    from typing import NamedTuple as NamedTuple
else:

    class _Maker(type):
        """Makes the named tuple that the body of a class tells: its fields, their defaults, and what else stands there."""

        def __new__(cls, name, bases, body):
            if not bases:
                return super().__new__(cls, name, bases, body)
            fields = body["__annotations__"]
            made = namedtuple(name, fields, defaults=[body[it] for it in fields if it in body], module=body["__module__"])
            for key, value in body.items():
                if key not in fields:
                    setattr(made, key, value)
            made.__new__.__annotations__ = fields
            return made

    class NamedTuple(metaclass=_Maker):
        """The base of such a class."""
