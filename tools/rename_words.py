#!/usr/bin/env python3
"""Brings the definitions and lemmas of this repository to the spelling of today's Rattle: words in snake case,
types and facts in upper camel case, a dash only between the names of two functions. Functions of src/, fields of
structs, exported names, strings, inputs and outputs keep their names. Run once, at the top, after the toolchain's own script.
"""
import os
import re

# Names that would fall together with another: a lemma named as its function, a definition named as a field of a struct.
APART = {
    "commit-cells": "commit_cells_lem",
    "day-of": "day_of_lem",
    "events-at": "events_at_lem",
    "first-at": "first_at_lem",
    "in-force": "in_force_lem",
    "next-change": "next_change_lem",
    "next-month": "next_month_lem",
    "plan-of": "plan_of_lem",
    "quick-place": "quick_place_lem",
    "year-at": "year_at_lem",
    "daysBack": "days_back_of",
    "lastSecond": "final_second",
    "localTime": "local_time_of",
    "leZ-no": "le_z_no",
    "getD": "get_or",
}
# Variables and fields that no line declares at its start.
VARIABLES = ["beginHour", "endHour", "lowerSpan", "lowerTime"]
NAME = r"[^\W\d][\w'*+→≤≡-]*"
TOKEN = re.compile(r"(?<![\w'-])" + NAME)


def files():
    for folder, inner, names in os.walk("crates"):
        inner[:] = sorted(f for f in inner if f != "out")
        for name in sorted(names):
            if name.endswith((".antt", ".rt")):
                yield os.path.join(folder, name)


def declared():
    found, goals = set(VARIABLES), set()
    for path in files():
        with open(path, encoding="utf-8") as f:
            text = f.read()
        if path.endswith(".rt"):
            found |= set(re.findall(r"\bghost (\w+)\s*[:=]", text))
            continue
        for line in text.split("\n"):
            m = re.match(r"\s*(?:(?:pub|abbrev|unfoldable) )*([^\s:(){}]+) : (.*)", line)
            if m:
                (goals if re.match(r"(goal|given)\.", m[2]) else found).add(m[1])
    return found - goals


def spelled(name):
    if name in APART:
        return APART[name]
    if not name[0].islower():
        return name
    snake = re.sub(r"([a-z0-9])([A-Z])", lambda m: m[1] + "_" + m[2].lower(), name)
    two_functions = snake != name or "+" in name
    return snake if two_functions else snake.replace("-", "_")


def main():
    table = {n: spelled(n) for n in declared() if spelled(n) != n}
    news = list(table.values())
    for n in sorted(table):
        if news.count(table[n]) > 1:
            raise SystemExit(f"{n} falls together with another as {table[n]}")

    def turn(m):
        word = m[0]
        if word not in table or ("-" in word and m.string[m.start() - 1 : m.start()] == "."):
            return word
        return table[word]

    for path in files():
        with open(path, encoding="utf-8") as f:
            text = f.read()
        lines = []
        for line in text.split("\n"):
            head, quote, rest = line, "", ""
            if path.endswith(".rt") and '"' in line:
                head, quote, rest = line.partition('"')
            lines.append(TOKEN.sub(turn, head) + quote + rest)
        new = "\n".join(lines)
        if new != text:
            with open(path, "w", encoding="utf-8") as f:
                f.write(new)
    print(f"{len(table)} names")


if __name__ == "__main__":
    main()
