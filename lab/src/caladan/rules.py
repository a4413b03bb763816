"""By which rule of a policy a record was made. The host says it in the first line of the table of a record, as
`# Audit it with --policy assured, rule 2.`; a line without a rule is of the first one."""
from __future__ import annotations

import re
from typing import NamedTuple, Optional

from .files import separator
from .refusal import Refusal

# The rule by which this version decides and audits. A number rises where the policy decides otherwise than before.
RULES = {"caladan": 1, "assured": 2}
# The last version of each rule of before.
LAST_VERSIONS = {("assured", 1): "5"}
LINE, BYTE_ORDER_MARK, HISTORY = b"# Audit it with ", b"\xef\xbb\xbf", b"caladan-history,"
WORDS = re.compile(r"--policy ([a-z]+)(?:, rule ([1-9][0-9]{0,8}))?\.")


class Rule(NamedTuple):
    """A rule of a policy."""

    policy: str
    number: int

    def __str__(self) -> str:
        return f"{self.policy}, rule {self.number}"


def rule_of(table: bytes) -> Optional[Rule]:
    """The rule that the table of a record names; none of a table that is no record's, or of a run by caladan. Refusal
    of a line that names none."""
    line = table.removeprefix(BYTE_ORDER_MARK).partition(b"\n")[0].rstrip(b"\r \t")
    if not line.startswith(LINE):
        return None
    said = line.removeprefix(LINE).decode("ascii", "replace")
    found = WORDS.fullmatch(said)
    if not found:
        raise Refusal(f"the record's first line does not say by which rule it was made: {said[:80]!r}; wanted: "
                      f"'--policy assured, rule {RULES['assured']}.'")
    return Rule(found[1], int(found[2] or 1))


def refuse_other_rule(given: bytes) -> None:
    """Refuses an input that is a record made by a rule which this version has not."""
    cut = separator(given)
    if cut is None or not given[cut[1]:].removeprefix(BYTE_ORDER_MARK).lstrip(b"\r\n").startswith(HISTORY):
        return
    rule = rule_of(given[:cut[0]])
    if rule is None or RULES.get(rule.policy) == rule.number:
        return
    here, last = RULES.get(rule.policy), LAST_VERSIONS.get(rule)
    has = f"rule {here}" if here else f"the policies {', '.join(RULES)}"
    ask = f"version {last}" if last else "the version that made it"
    raise Refusal(f"the record was made by {rule}, and this version has {has}: audit it with {ask}, or take its first "
                  "line away, and it is a plain history")
