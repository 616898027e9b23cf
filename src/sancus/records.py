"""Dataclasses that share their methods.

`dataclasses` compiles methods for each class, which with the modules that it loads was a third of what a call of the command took. This has what
`sancus.model` and `sancus.cli` use of it. The API's classes are real dataclasses, and neither kind extends the other.
"""

from __future__ import annotations

TYPE_CHECKING = False
if TYPE_CHECKING:
    from dataclasses import dataclass as dataclass
    from dataclasses import field as field
    from dataclasses import replace as replace
else:

    class Default:
        """What makes a field's value if none is given."""

        def __init__(self, make):
            self.make = make

    def field(*, default_factory):
        return Default(default_factory)

    def maker_of(default):
        return default.make if isinstance(default, Default) else lambda: default

    def initialize(self, *values, **named):
        cls, fields = type(self), self.__dict__
        fields.update(zip(cls.__match_args__, values))
        fields.update(named)
        is_odd = len(fields) != len(values) + len(named)
        if len(fields) < len(cls.__match_args__):
            fields.update((name, make()) for name, make in cls.__defaults__.items() if name not in fields)
        if is_odd or fields.keys() != set(cls.__match_args__):
            raise TypeError(f"{cls.__name__} takes the fields {', '.join(cls.__match_args__)}")
        if hasattr(cls, "__post_init__"):
            self.__post_init__()

    def values_of(it):
        return tuple(it.__dict__[name] for name in it.__match_args__)

    def is_equal(self, other):
        return values_of(self) == values_of(other) if type(self) is type(other) else NotImplemented

    def hashed(self):
        return hash(values_of(self))

    def shown(self):
        pairs = zip(self.__match_args__, values_of(self))
        return f"{type(self).__qualname__}({', '.join(f'{name}={value!r}' for name, value in pairs)})"

    def refuse(self, name, *_):
        raise AttributeError(f"cannot change the field {name!r} of a frozen {type(self).__name__}")

    CHANGING = {"__init__": initialize, "__eq__": is_equal, "__repr__": shown, "__hash__": None}
    FROZEN = {**CHANGING, "__hash__": hashed, "__setattr__": refuse, "__delattr__": refuse}

    def dataclass(cls=None, *, frozen=False):
        if cls is None:
            return lambda it: dataclass(it, frozen=frozen)
        own, above = cls.__annotations__, getattr(cls, "__match_args__", ())
        given = {it: cls.__dict__[it] for it in own if it in cls.__dict__}
        for name, it in (FROZEN if frozen else CHANGING).items():
            if name not in cls.__dict__ or name == "__hash__":
                setattr(cls, name, it)
        cls.__match_args__ = (*above, *(it for it in own if it not in above))
        cls.__defaults__ = {**getattr(cls, "__defaults__", {}), **{name: maker_of(it) for name, it in given.items()}}
        return cls

    def replace(it, **changes):
        return type(it)(**{**dict(zip(it.__match_args__, values_of(it))), **changes})
