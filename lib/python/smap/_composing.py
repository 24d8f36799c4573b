"""A map composed with the maps of its sources, all at once."""

from collections.abc import Mapping as AnyMapping
from contextlib import closing
from typing import Callable, Dict, List, Mapping, Optional, Union

from . import _given, _smap
from ._maps import SourceMap
from ._reported import refused_as

# The map of a source.
Given = Union[_given.FileData, SourceMap]
Load = Callable[[str], Optional[Given]]


def compose_all(outer: SourceMap, inners: Optional[Mapping[Union[str, int], Given]] = None, load: Optional[Load] = None,
                prune: bool = False, no_content: bool = False, debug_id: bool = False) -> bytes:
    """The text of the map that a map and the maps of its sources come to. `inners` are maps, or what a `SourceMap` reads,
    each under the name of the sources that it is of, or under the number of one source, from 0. `load` is asked by name for
    the map of each source that has none among them, and then for those of the sources of the maps that were found, and so
    on; it gives the map, or None where there is none. It is asked once for each name. A source is not followed where it is
    one of those that lead to it. What is read here stands at the name of its source where that is a URL. With `prune`
    sources and names that no mapping has are left out, and of equal ones all but the first; with `no_content` the contents
    of the sources. With `debug_id` the debug id of the outer map stays. A `SourceMap` that is given stays open. Raises `Refused`, whose `url` is the source's name
    where its map is refused, or `MemoryError`."""
    if not isinstance(outer, SourceMap):
        raise TypeError(f"a SourceMap is composed, not {type(outer).__name__}")
    if inners is not None and not isinstance(inners, AnyMapping):
        raise TypeError(f"inner maps are a dict of sources and maps, not {type(inners).__name__}")
    if load is not None and not callable(load):
        raise TypeError(f"load is a function, not {type(load).__name__}")
    names = [outer.source_name(number) for number in range(outer.counts.sources)]
    with closing(_smap.Inners(outer)) as places:
        for number, given in _by_number(names, inners or {}).items():
            _put(places, number, names[number] if number < len(names) else None, given)
        if load is not None:
            _ask(outer, places, load)
        text = places.composed(outer, bool(prune), bool(no_content), *outer._id_if(debug_id))
    if isinstance(text, int):
        raise refused_as(text)
    return text


def _by_number(names: List[Optional[str]], inners: Mapping[Union[str, int], Given]) -> Dict[int, Given]:
    # The inner maps by the numbers of the sources that they are of.
    named: Dict[Optional[str], List[int]] = {}
    for number, name in enumerate(names):
        named.setdefault(name, []).append(number)
    placed: Dict[int, Given] = {}
    for key, given in inners.items():
        if isinstance(key, str) and key not in named:
            raise refused_as(_smap.C4, f" {key}")
        for number in named[key] if isinstance(key, str) else [_given.index(key, "source")]:
            if number in placed:
                raise ValueError(f"source {number} has two maps")
            placed[number] = given
    return placed


def _ask(outer: SourceMap, places: _smap.Inners, load: Load) -> None:
    # Asks by name for the map of each source of which one is wanted.
    loaded: Dict[Optional[str], Optional[Given]] = {}
    number = places.next(outer)
    while number is not None:
        if number < 0:
            raise refused_as(-number)
        name = places.name(outer, number)
        if name is not None and name not in loaded:
            loaded[name] = load(name)
        found = loaded.get(name)
        if found is not None:
            _put(places, number, name, found)
        number = places.next(outer)


def _put(places: _smap.Inners, number: int, name: Optional[str], given: Given) -> None:
    # Puts a map in the place of a source of this name. The place owns it, so a SourceMap is shared.
    if isinstance(given, SourceMap):
        read = given._shared()
    else:
        read = SourceMap(given) if name is None else SourceMap._under(name, given)
    with read:
        if not places.put(number, read):
            raise refused_as(_smap.C1)
