"""Source maps of ECMA-426: look-ups, composition and stack traces, over the library libsmap.

    with SourceMap.from_file("app.min.js.map") as source_map:
        answer = source_map.look_up(0, 1030)
        if answer is not None and answer.source is not None:
            print(source_map.source(answer.source).name, answer.line + 1, answer.column + 1)

Lines, columns, sources and names count from 0, columns in UTF-16 code units. The library is within the package. `python -m
smap` is the program, where the package has it.
"""

from ._answers import Answer, Context, Counts, Fit, Generated, Mapping, Place, Source
from ._composing import compose_all
from ._maps import SourceMap, compose, encode
from ._remapping import LoaderContext, Remapped, remapping
from ._smap import version as __version__
from ._reported import Refused
from ._stores import AsyncMaps, Maps
from ._traces import Rewriter, frame_urls

__all__ = ["Answer", "AsyncMaps", "Context", "Counts", "Fit", "Generated", "LoaderContext", "Mapping", "Maps", "Place", "Refused", "Remapped", "Rewriter",
           "Source", "SourceMap", "__version__", "compose", "compose_all", "encode", "frame_urls", "remapping"]
