"""A list of results that may still be held as the program wrote it."""
from __future__ import annotations

from abc import abstractmethod
from collections.abc import Callable, Iterable, Iterator, MutableSequence, Sequence
from typing import Any, Optional, TypeVar, Union, overload

Item = TypeVar("Item")
Me = TypeVar("Me", bound="ResultList[Any]")


class ResultList(MutableSequence[Item]):
    """A list whose items are made when they are needed, and which otherwise behaves like a list.

    It compares equal to a list of the same items; parts, copies and sums have its type. It is not a `list` itself: use
    `list(results)` if a function needs one, for example `json.dumps`."""

    # A list, or an immutable sequence that is replaced by a list before the first change.
    _held: Sequence[Item]

    @abstractmethod
    def _like(self: Me, items: Sequence[Item]) -> Me:
        """A list of results of the same kind with these items."""

    def _list(self) -> list[Item]:
        """The items as a list that can be changed."""
        if not isinstance(self._held, list):
            self._held = list(self._held)
        return self._held

    def __len__(self) -> int:
        return len(self._held)

    def __iter__(self) -> Iterator[Item]:
        return iter(self._held)

    @overload
    def __getitem__(self, place: int) -> Item: ...

    @overload
    def __getitem__(self: Me, place: slice) -> Me: ...

    def __getitem__(self, place: Union[int, slice]) -> Any:
        chosen = self._held[place]
        return self._like(chosen) if isinstance(place, slice) else chosen  # type: ignore[arg-type]

    def __setitem__(self, place: Any, value: Any) -> None:
        self._list()[place] = value

    def __delitem__(self, place: Union[int, slice]) -> None:
        del self._list()[place]

    def insert(self, index: int, value: Item) -> None:
        self._list().insert(index, value)

    def append(self, value: Item) -> None:
        self._list().append(value)

    def extend(self, values: Iterable[Item]) -> None:
        self._list().extend(values)

    def sort(self, *, key: Optional[Callable[[Item], Any]] = None, reverse: bool = False) -> None:
        # Sorts the items in place, as `list.sort` does.
        items: list[Any] = self._list()
        items.sort(key=key, reverse=reverse)

    def copy(self: Me) -> Me:
        return self._like(list(self._held) if isinstance(self._held, list) else self._held)

    __copy__ = copy

    def __add__(self: Me, other: Iterable[Item]) -> Me:
        return self._like([*self, *other])

    def __radd__(self, other: list[Item]) -> list[Item]:
        return [*other, *self]

    def __eq__(self, other: object) -> bool:
        if isinstance(other, (ResultList, list)):
            return self is other or [*self] == [*other]
        return NotImplemented
