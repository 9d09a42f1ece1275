"""Every sentence that a person sees in the lab's week, made general, counted, each with an example."""

from __future__ import annotations

import collections
import re
import threading
from typing import Iterable

WHO = r"[^\s(,|]+@\S+ \d+ [^\s),|]+"
SPAN = r"\d+(?:\.\d+)? (?:s|min|h|d)(?: \d+ (?:s|min|h))?"


class Sentences:
    def __init__(self, names: Iterable[str], people: Iterable[str], stations: Iterable[str]) -> None:
        its = sorted(names, key=len, reverse=True)
        self._rules = [
            (re.compile(r"\b[0-9a-f]{16,}\b|\b[\w-]{43}\b"), "HASH"),
            (re.compile(r"/dev/shm/\S+/|/tmp/\S+/"), "FOLDER/"),
            (re.compile(r"\b(?:\d+\.){3}\d+(?::\d+)?"), "ADDRESS"),
            (re.compile(WHO), "WHO"),
            (re.compile(r"\b(?:guest-\d+|" + "|".join(map(re.escape, stations)) + r")\b"), "STATION"),
            (re.compile(r"(?<![\w*-])(?:" + "|".join(map(re.escape, its)) + r")(?![\w-])"), "INSTRUMENT"),
            (re.compile(r"\b(?:" + "|".join(map(re.escape, people)) + r")\b"), "PERSON"),
            (re.compile(r"\d{4}-\d\d-\d\d \d\d:\d\d"), "MOMENT"),
            (re.compile(rf"\b{SPAN}(?!\w)|\b\d+\.\d+s\b"), "SPAN"),
            (re.compile(r"\b\d+(?:\.\d+)?\b"), "N"),
            (re.compile(r"PERSON@[^\s),:|]+"), "WHO"),
            (re.compile(r"PERSON: WHO|WHO"), "WHO"),
            (re.compile(r"\b(INSTRUMENT|PERSON|STATION|ADDRESS)(?:(?:, and |, | and | )\1\b)+"), r"\1 .."),
            (re.compile(r" {2,}"), "  "),
        ]
        self.count = collections.Counter[tuple[str, str]]()
        self.example = dict[tuple[str, str], str]()
        self._lock = threading.Lock()

    def general(self, text: str) -> str:
        for rule, word in self._rules:
            text = rule.sub(word, text)
        # (a list of like clauses is one)
        parts = text.split(", ")
        return ", ".join(dict.fromkeys(parts)) if len(parts) > 2 else text

    def add(self, where: str, text: str) -> None:
        for line in text.splitlines():
            if line.strip():
                key = where, self.general(line.strip())
                with self._lock:
                    self.count[key] += 1
                    self.example.setdefault(key, line.strip())

    def write(self, path: str) -> None:
        with open(path, "w", encoding="utf-8") as file:
            for (where, text), count in sorted(self.count.items(), key=lambda it: (it[0][0], -it[1], it[0][1])):
                print(f"{count:6}  {where}: {text}\n                {self.example[where, text][:600]}", file=file)
