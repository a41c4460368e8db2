"""Values inside one another: 127 are a value, and 128 are not JSON."""

from typing import Iterable, List

from stage import StageCase
from wqprogram.json_values import compact_text

MOST = 127
# The beginning and the end of a value with another one inside.
KINDS = [("[", "]"), ('{"":', "}"), (" [\t", " ] "), (' { "a" : ', "} "), ('[{"":', "}]")]


class Brackets(StageCase):
    def test_brackets(self) -> None:
        root = compact_text(str(self.stage.root))
        for opens, closes in KINDS:
            for inside in ("", '"t"'):
                name = f"{opens!r} around {inside!r}"
                values = nested_values(opens, closes, inside or "[]")
                self.compare(name, data_of(values))
                self.compare(
                    f"{name} in arguments", data_of(line for one in values for line in with_argument(root, one))
                )

    def test_open_brackets(self) -> None:
        """Brackets that nothing closes, up to a whole line of them."""
        for opens in (b"[", b'{"":', b'["",', b"[[],", b'["query",[', b" [", b"["):
            for length in (MOST, MOST + 1, 100_000, 1_048_576):
                data = (opens * (length // len(opens) + 1))[:length]
                self.compare(f"{length} bytes of {opens!r}", data + b"\n" + data[::-1] + b'\n["version"]\n')


def data_of(lines: Iterable[str]) -> bytes:
    return "".join(line + "\n" for line in lines).encode()


def nested_values(opens: str, closes: str, inside: str) -> List[str]:
    """The value inside so many pairs of brackets that in the depths around the limit each comes."""
    of_a_pair = opens.count("[") + opens.count("{")
    pairs = [depth // of_a_pair for depth in (2, 4, 124, 125, 126, 127, 128, 129)]
    return [opens * count + inside + closes * count for count in pairs]


def with_argument(root: str, nested: str) -> List[str]:
    """Each command with this value where it takes an argument."""
    queries = [
        nested,
        f'{{"x":{nested},"fields":["name"]}}',
        f'{{"expression":{nested}}}',
        f'{{"expression":["not",{nested}]}}',
        f'{{"fields":{nested}}}',
        f'{{"since":{nested}}}',
        f'{{"path":{nested}}}',
        f'{{"suffix":{nested}}}',
    ]
    triggers = [f'{{"name":"t","command":["true"],"x":{nested}}}', f'{{"name":"t","command":{nested}}}']
    alone = [
        "frob",
        "version",
        "watch",
        "watch-list",
        "watch-del",
        "clock",
        "trigger-list",
        "program-list",
        "program-del",
        "get-sockname",
        "shutdown-server",
    ]
    return [
        *(f'["{command}",{nested}]' for command in alone),
        f'["version",{{"x":{nested}}}]',
        f'["clock",{root},{{"x":{nested}}}]',
        f'["program-add","p",{nested}]',
        *(f'["query",{root},{query}]' for query in queries),
        f'["subscribe",{root},"s",{{"x":{nested},"expression":"false"}}]',
        f'["unsubscribe",{root},{nested}]',
        *(f'["trigger",{root},{trigger}]' for trigger in triggers),
        f'["trigger-del",{root},{nested}]',
    ]
