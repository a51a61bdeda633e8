#!/usr/bin/env python3
"""Where the findings are that `girzohal` wrote in a form, as Python's own readers find them. `try_girzohal.py` compares the forms.

`places(form, text)` lists them as (name, row, column), 0 where the form doesn't say it; `problems(text)` has the end row besides.
`shown_as(form, problems)` lists what a form says of the same findings: GitHub has columns within one row alone; GitLab has rows
alone, from 1, and paths without `./`; and a log has no column without a row."""
import json
import re
import urllib.parse
import xml.etree.ElementTree as xml

# The forms that say where findings are. `json` and `document` say it in bytes, and are only counted.
PLACED = ("problems", "sarif", "checkstyle", "junit", "stylish", "github", "gitlab")
BACK = {"\\\\": "\\", "\\n": "\n", "\\r": "\r", "\\c": ":", "\\b": "]"}


def problems(text):
    """The findings in lines of problems: (name, row, column, end row)."""
    found = []
    for line in text.splitlines():
        it = re.match(r"((?:[^:\\]|\\.)*):(\d+):(\d+):(\d+):(\d+): (?:error|warning|advice)", line)
        if not it:
            raise ValueError(f"no problem: {line}")
        found.append((re.sub(r"\\.", lambda mark: BACK[mark[0]], it[1]), *map(int, it.groups()[1:4])))
    return found


def sarif(text):
    places = []
    for result in json.loads(text)["runs"][0]["results"]:
        where = result["locations"][0]["physicalLocation"]
        region = where.get("region", {})
        places.append((where["artifactLocation"]["uri"], region.get("startLine", 0), region.get("startColumn", 0)))
    return places


def checkstyle(text):
    return [(file.get("name"), int(it.get("line")), int(it.get("column"))) for file in xml.fromstring(text).findall("file") for it in file.findall("error")]


def junit(text):
    places = []
    for it in xml.fromstring(text).iter("testcase"):
        if it.find("failure") is not None:
            row, column = re.search(r" at (\d+):(\d+)(?: \(\d+\))?$", it.get("name")).groups()
            places.append((it.get("file"), int(row), int(column)))
    return places


def stylish(text):
    places, name = [], None
    for line in text.splitlines():
        it = re.match(r"\s+(\d+):(\d+)\s+(?:error|warning|info|advice) ", line)
        if it:
            places.append((name, int(it[1]), int(it[2])))
        else:
            name = line
    return places


def github(text):
    places = []
    for said in re.findall(r"(?m)^::(?:error|warning|notice) (.*?)::", text):
        told = dict(it.split("=", 1) for it in said.split(","))
        places.append((urllib.parse.unquote(told.get("file", "")), int(told.get("line", 0)), int(told.get("col", 0))))
    return places


def gitlab(text):
    return [(it["location"]["path"], max(it["location"]["lines"]["begin"], 1), 0) for it in json.loads(text)]


READERS = {"sarif": sarif, "checkstyle": checkstyle, "junit": junit, "stylish": stylish, "github": github, "gitlab": gitlab}


def places(form, text):
    """The places of the findings, in order of their names, rows and columns."""
    return sorted(it[:3] for it in problems(text)) if form == "problems" else sorted(READERS[form](text))


def shown_as(form, found):
    """What a form says of the findings that lines of problems tell."""
    places = []
    for name, row, column, last in found:
        if form == "sarif":
            column = column if row else 0
        if form == "github":
            column = column if last in (0, row) else 0
        if form == "gitlab":
            name, row, column = re.sub(r"^(\./)+", "", name), max(row, 1), 0
        places.append((name, row, column))
    return sorted(places)


def count(form, text):
    """How many findings there are."""
    if form == "json":
        return len([json.loads(line) for line in text.splitlines()])
    if form == "document":
        return len(json.loads(text)["reports"])
    if form in ("summary", "markdown"):
        return 0 if text == "no findings\n" else int(text.split(" ", 1)[0])
    return len(places(form, text))
