"""Reads in the Rattle code the keys of a fare table: what each holds, whether it is required, and its order with others."""
import dataclasses
import pathlib
import re

from fact_code import Wrong, text_of

KEY, CHECKS = "crates/fare_table/src/key.rt", "crates/fare_table/src/checks.rt"
ENTRY = re.compile(r'Key::(?P<name>\w+) => (?:top_key\(|row_key\(Key::(?P<list>\w+), )"(?P<text>\w+)", '
                   r"(?P<need>REQUIRED|OPTIONAL), (?P<shape>\w+(?:::\w+)?)(?:\((?P<given>[^)]*)\))?\)")
ORDER = re.compile(r"Key::(?P<name>\w+) => number_at\(table, (?P<first>Key::\w+|key)\) (?P<sign><=|!=) "
                   r"number_at\(table, (?P<second>Key::\w+|key)\)")
SHAPES = ("Whole", "Truth", "Text", "Name", "Kind", "Zones", "Rows")


@dataclasses.dataclass(frozen=True)
class Key:
    """A key of a table, or of the rows of a list. `shape` is the code's name for what it holds, with its limits, and `order`
    what its number has to be beside another key of its row."""
    name: str
    text: str
    is_required: bool
    shape: str
    limits: tuple[int, ...]
    order: tuple[str, str] | None

    def key(self) -> str:
        """The key in its row or its table."""
        return self.text.rpartition(".")[2]


def constants(text: str) -> dict[str, str]:
    """The values of the constants."""
    return dict(re.findall(r"const (\w+): [&\w]+ = (.+);", text))


def resolved(known: dict[str, str], shape: str, given: str) -> tuple[str, tuple[int, ...]]:
    """The name of a shape and its limits, by the constants."""
    shape, _, given = known.get(shape, f"{shape}({given})").partition("(")
    numbers = (known.get(part, part).replace("_", "") for part in re.findall(r"\w+", given))
    return shape.removeprefix("Shape::"), tuple(map(int, numbers))


def keys(top: pathlib.Path) -> list[Key]:
    """The keys, in the order in which their faults are looked for."""
    text, known = text_of(top, KEY), constants(text_of(top, KEY))
    listed = re.findall(r"^ {4}([A-Z]\w+),$", text.partition("pub enum Key {")[2].partition("\n}")[0], re.M)
    entries = {match["name"]: match for match in ENTRY.finditer(text)}
    if set(listed) != entries.keys() or not listed:
        raise Wrong(f"{KEY}: the keys of `enum Key` and of `entry` differ, or can't be read: "
                    f"{', '.join(sorted(set(listed) ^ entries.keys()))}; scripts/dev/fact_keys.py has to be changed with the code")
    texts = {name: f"{entries[one['list']]['text']}.{one['text']}" if one["list"] else one["text"] for name, one in entries.items()}
    found, order = [], orders(top, texts)
    for name, one in entries.items():
        shape, limits = resolved(known, one["shape"], one["given"] or "")
        if shape not in SHAPES:
            raise Wrong(f"{KEY}: {name} has the shape {shape}; give scripts/dev/fact_keys.py words for it")
        found.append(Key(name, texts[name], one["need"] == "REQUIRED", shape, limits, order.get(name)))
    return found


def orders(top: pathlib.Path, texts: dict[str, str]) -> dict[str, tuple[str, str]]:
    """What a key's number has to be beside another key of its row."""
    found = {}
    for match in ORDER.finditer(text_of(top, CHECKS)):
        other = (match["first"] if match["second"] == "key" else match["second"]).removeprefix("Key::")
        word = "not equal to" if match["sign"] == "!=" else "not above" if match["first"] == "key" else "not below"
        found[match["name"]] = word, texts[other].rpartition(".")[2]
    return found


def ranges(top: pathlib.Path) -> dict[str, tuple[str, str]]:
    """The type and the range of each key, in words."""
    known, listed, found = constants(text_of(top, KEY)), keys(top), {}
    for key in listed:
        has_rows = any(one.text.startswith(f"{key.text}.") for one in listed)
        least, most = key.limits if len(key.limits) == 2 else (1, *key.limits, 0)[:2]
        kind, said = {
            "Whole": ("whole number", f"1 to {most:,}"), "Truth": ("truth value", "`true` or `false`"), "Text": ("text", ""),
            "Name": ("text", f"1 to {known['LONGEST_NAME']} bytes"),
            "Kind": ("text", " or ".join(f"`{known[name].strip(chr(34))}`" for name in ("ANYTIME", "OFF_PEAK"))),
            "Zones": ("list of whole numbers", f"one or two, in ascending order, each 1 to {known['HIGHEST_ZONE']}"),
            "Rows": (f"list of {'tables' if has_rows else 'texts'}", f"{least} to {most:,} rows" if least else f"at most {most:,} rows"),
        }[key.shape]
        found[key.text] = kind, said + (f", {key.order[0]} `{key.order[1]}`" if key.order else "")
    return found
