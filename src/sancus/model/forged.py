"""What a `forged` item says: under which key the tag is that was accepted, who hadn't made it, and with which packet.

The item after it tells what was accepted (docs/FORMATS.md). A trace doesn't tell which packet was presented, but the
schedule does.
"""

from __future__ import annotations

from typing import List, Optional, Sequence, Tuple

from sancus.model.described import Deployment
from sancus.model.items import Item, connection_said
from sancus.model.numbers import number

# How long the packet is that each item accepts.
LENGTHS = {"attested": 16, "open": 38, "take": 24}
AFTER = (
    "up to here the trace is a legal run of the sources; after it no more is promised than that private sections "
    "stay guarded"
)


def accepted(item: Item, following: Optional[Item], deployment: Deployment) -> str:
    """Under whose key the accepted tag is, and who hadn't made it."""
    made = following.fields() if following else {}
    kind, module = (following.kind if following else ""), made.get("module")
    if kind == "attested" and not item.fields()["module"]:
        return (
            f"as {module}'s answer for boot {made['boot']}, the deployer accepts a tag under {module}'s key that "
            f"{module} hadn't made"
        )
    if kind == "open":
        return (
            f"as a set-key packet for its end of {connection_said(made['connection'], deployment)} in epoch {made['epoch']}, "
            f"{module} accepts a tag under {module}'s key that the deployer hadn't made"
        )
    if kind == "take":
        sender = deployment.connections[made["connection"]].sender
        return (
            f"as event {made['event']} of {connection_said(made['connection'], deployment)}, {module} accepts a tag under "
            f"the key of {made['connection']} in its epoch {made['epoch']} that {sender} hadn't made"
        )
    return f"{item.fields()['module'] or 'the deployer'} accepts a tag that its rightful maker hadn't made"


def said(items: Sequence[Item], at: int, deployment: Deployment, presented: str = "") -> str:
    """What the `forged` of this number says, with the packet that was presented. Without that it is the last packet of
    its length before, since a trace doesn't tell."""
    following = items[at] if at < len(items) else None
    text, length = accepted(items[at - 1], following, deployment), LENGTHS.get(following.kind) if following else None
    if presented:
        return text + presented
    packets = [it.fields() for it in items[: at - 1] if it.kind == "packet"]
    suited = [it["packet"] for it in packets if it["length"] == length]
    return f"{text}; the last packet of {length} bytes before it is packet {suited[-1]}" if suited else text


def presented_by(lines: List[str], at: int, deployment: Deployment) -> str:
    """The packet that a line of a schedule presents: an answer's, or for a call the last that was given to its window
    since the last `reset` of the node."""
    words = lines[at - 1].split()
    if words[:1] == ["answer"] and len(words) == 4:
        return f", in packet {words[3]}"
    if words[:1] != ["call"] or len(words) != 5:
        return ""
    node, window = deployment.node_of(words[1]), number(words[3])
    found = ""
    for it in (line.split() for line in lines[: at - 1]):
        if it == ["reset", node]:
            found = ""
        elif it[:1] == ["give"] and len(it) == 4 and (it[2], number(it[3])) == (node, window):
            found = f"; packet {it[1]} was given to this window last"
    return found


def notes(pairs: List[Tuple[int, str]], lines: List[str], deployment: Deployment) -> Tuple[str, int]:
    """What the first `forged` of a run says, with the line that shows it; of the items, each with its line."""
    items = [Item(at, text) for at, (_, text) in enumerate(pairs, 1)]
    at = next(it.number for it in items if it.kind == "forged")
    line = pairs[at - 1][0]
    presented = presented_by(lines, line, deployment)
    return f"item {at}, `{items[at - 1].text}`: {said(items, at, deployment, presented)}", line
