"""Source maps in Python, apart from smap and from the page: decoded, encoded, and which bytes are whose."""

import bisect
import json
from pathlib import Path
from typing import Any, Dict, List, Tuple

DIGITS = "ABCDEFGHIJKLMNOPQRSTUVWXYZabcdefghijklmnopqrstuvwxyz0123456789+/"
Mapping = Tuple[int, ...]


def decode(text: str) -> List[List[Mapping]]:
    """The mappings of each line: column, and source, line, column, and name."""
    lines, source = [], [0, 0, 0, 0]
    for line in text.split(";"):
        column, mappings = 0, []
        for segment in filter(None, line.split(",")):
            numbers, value, shift = [], 0, 0
            for digit in map(DIGITS.index, segment):
                value += (digit & 31) << shift
                shift += 5
                if digit < 32:
                    numbers.append(-(value >> 1) if value & 1 else value >> 1)
                    value = shift = 0
            column += numbers[0]
            for i, number in enumerate(numbers[1:]):
                source[i] += number
            mappings.append((column, *source[: len(numbers) - 1]))
        lines.append(mappings)
    return lines


def spelled(number: int) -> str:
    rest, text = (-number << 1 | 1 if number < 0 else number << 1), ""
    while rest > 31:
        text += DIGITS[rest & 31 | 32]
        rest >>= 5
    return text + DIGITS[rest]


def encode(lines: List[List[Mapping]]) -> str:
    before, texts = [0, 0, 0, 0], []
    for line in lines:
        column, segments = 0, []
        for mapping in line:
            segment = spelled(mapping[0] - column)
            column = mapping[0]
            for i, number in enumerate(mapping[1:]):
                segment += spelled(number - before[i])
                before[i] = number
            segments.append(segment)
        texts.append(",".join(segments))
    return ";".join(texts)


def split_lines(text: str) -> List[Tuple[str, str]]:
    """The lines of a text, each with its end."""
    lines, line, i = [], "", 0
    while i < len(text):
        end = "\r\n" if text.startswith("\r\n", i) else text[i] if text[i] in "\n\r\u2028\u2029" else ""
        if end:
            lines.append((line, end))
            line = ""
        else:
            line += text[i]
        i += max(1, len(end))
    return [*lines, (line, "")]


def bytes_by_source(map_file: Dict[str, Any], text: str) -> Tuple[List[int], int]:
    """How many bytes of a text each source makes, and none: character by character, by the last mapping at or before it."""
    owned, unmapped = [0] * len(map_file["sources"]), 0
    mappings = decode(map_file["mappings"])
    for number, (line, end) in enumerate(split_lines(text)):
        on_line = mappings[number] if number < len(mappings) else []
        columns = [mapping[0] for mapping in on_line]
        unit = 0
        for character in line:
            size = len(character.encode())
            at = bisect.bisect_right(columns, unit) - 1
            if at >= 0 and len(on_line[at]) > 1:
                owned[on_line[at][1]] += size
            else:
                unmapped += size
            unit += 2 if ord(character) > 0xFFFF else 1
        unmapped += len(end.encode())
    return owned, unmapped


def repeated(map_path: Path, text_path: Path, size: int) -> Tuple[Dict[str, Any], str]:
    """A file of one line, in which another stands many times over, and its map. Each time has sources of its own."""
    real = json.loads(map_path.read_text())
    lines = text_path.read_text().split("\n")
    text = " ".join(lines)
    copies = -(-size // (len(text) + 1))
    flat: List[Mapping] = []
    begin = 0
    for line, mappings in zip(lines, decode(real["mappings"])):
        flat += [(begin + mapping[0], *mapping[1:]) for mapping in mappings]
        begin += len(line) + 1
    count = len(real["sources"])
    placed: List[Mapping] = []
    for copy in range(copies):
        shift = copy * (len(text) + 1)
        placed += [
            (mapping[0] + shift, mapping[1] + copy * count, *mapping[2:]) if len(mapping) > 1 else (mapping[0] + shift,)
            for mapping in flat
        ]
    sources = [f"packages/{copy // 20}/{copy % 20}/{name}" for copy in range(copies) for name in real["sources"]]
    many = {"version": 3, "sources": sources, "sourcesContent": real["sourcesContent"] * copies, "names": real.get("names", [])}
    return {**many, "mappings": encode([placed])}, (text + " ") * copies
