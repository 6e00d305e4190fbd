"""The profiles: each gives the bytes of a random case."""
import random
from collections.abc import Callable

from .cards import Card, card, spell
from .control import OUTPUTS, Control
from .deck import Deck, coin, ends_of_lines, rendered
from .network import Network
from .numbers import MODERATE, USUAL, WILD
from .spoil import Spoiler
from .texts import texts

# Of kinds of cards, fields and texts at the ends of what can be computed.
AT_THE_ENDS = {
    "series": {
        "R": "1.E-5 1.1E-5 2.E-5 1.E9 9.E8 1.E-3 1.E8 0",
        "L": "1.E9 1.E-6 1.E6 1.E4 2.E-6",
        "C": "1.E6 1.E-9 1.E-6 1.E4",
    },
    "line": {"A": "1.E-5 1.E9 1.E-3", "R": "1.E6 1.E4"},
    "second phase": {"A": "1.E-5 1.E9 1.E-3", "R": "1.E6 1.E4"},
    "source 11": {"amplitude": "1.E9 -1.E9 9.99E8 1.E8 1.E7 1.E-9 1.E6"},
    "source 12": {"amplitude": "1.E9 -1.E9 1.E8 1.E7"},
    "source 14": {"amplitude": "1.E9 -1.E9 9.99E8 1.E8 1.E7", "frequency": "1.E7 1.E6 .01"},
    "point of a resistor": {"other": "1.E9 9.E8"},
    "time switch": {"margin": "1.E9 0"},
    "control 11": {"amplitude": "1.E9 -1.E9 1.E8 1.E5"},
    "block": {"gain": "1.E6 1.E5 -1.E6 1.E-9 1.E-12"},
    "device": {"A": "1.E9 -1.E9 1.E-9", "B": "1.E9 1."},
}
TOLERANCES = ["0", "0", "1.E-9", "2.E-9", "3.E-9", "1.E-8", "1.E-7", "1.E-6"]


def network(pick: random.Random, control: float = 0.6, **sizes: object) -> Network:
    """A whole network, with a control part at this chance; `sizes` are those of Network."""
    made = Network(pick, **sizes)
    made.head()
    made.branches()
    made.choose_sources()
    made.switches()
    if coin(pick, 0.03 if made.steady else control):
        Control(made).write()
    if not made.steady and (made.deck.control is not None or coin(pick, 0.3)):
        made.controlled_switches()
    made.named_sources()
    for node, current in made.sources:
        made.source(node, current)
    made.outputs()
    made.finish()
    return made


def small(pick: random.Random) -> dict[str, int]:
    """Sizes of a small case."""
    return {"nodes": pick.randint(1, 6), "steps": pick.randint(1, 12)}


def whole(pick: random.Random) -> bytes:
    """A case of any parts, some with comments and other ends of lines."""
    cards = network(pick).deck.cards(pick, 0.06 if coin(pick, 0.2) else 0)
    return rendered(cards, ends_of_lines(pick), pick)


def valid(pick: random.Random) -> bytes:
    """A good case of any kind."""
    return pick.choice([whole] * 12 + [ends] * 3 + [switchy] * 2 + [blocky] * 3)(pick)


def broken(pick: random.Random) -> bytes:
    """A good case that is spoiled once, twice or three times."""
    made = network(pick, **(small(pick) if coin(pick, 0.75) else {}))
    cards = made.deck.cards(pick, 0.05 if coin(pick, 0.1) else 0)

    def other() -> list[Card]:
        return network(random.Random(pick.random()), **small(pick)).deck.cards(pick)

    spoiler = Spoiler(pick, cards, other)
    for _ in range(pick.choice([1, 1, 1, 1, 2, 2, 3])):
        spoiler.spoil()
    return rendered(cards, ends_of_lines(pick), pick)


def edge(pick: random.Random) -> bytes:
    """A small good case with one field at an end of its range, or with what reads nearly like a good text."""
    cards = network(pick, **small(pick)).deck.cards(pick)
    kinds = sorted({card.kind for card in cards if card.fields() and card.kind not in ("vintage", "formula")})
    kind = pick.choice(kinds)
    chosen = pick.choice([card for card in cards if card.kind == kind])
    field = pick.choice(chosen.fields())
    text = pick.choice(texts(field, pick.randrange(3)))
    chosen.put(field.first, field.last, text, pick.choice(["left", "right", pick]))
    return rendered(cards)


def spoiled_bytes(pick: random.Random) -> bytes:
    """A small case of which some bytes are changed, taken out, doubled or put in; or bytes of no case at all."""
    if coin(pick, 0.03):
        return bytes(pick.choice([pick.randrange(256), *b" \n0.A"]) for _ in range(pick.randint(0, 300)))
    data = bytearray(rendered(network(pick, **small(pick)).deck.cards(pick)))
    for _ in range(pick.choice([1, 1, 2, 3, 5, 20])):
        if not data:
            break
        place, other = pick.randrange(len(data)), pick.randrange(len(data))
        kind = pick.randrange(7)
        if kind == 0:
            data[place:place] = bytes([pick.choice([pick.randrange(256), *b" 0123456789.+-EDed\n\r,ABC()*/=$"])])
        elif kind == 1:
            data[place] = pick.choice([pick.randrange(256), 32, 10, 48])
        elif kind == 2:
            del data[place : place + pick.choice([1, 1, 1, 2, 5, 30])]
        elif kind == 3:
            data[other:other] = data[place : place + pick.randint(1, 100)]
        elif kind == 4:
            data[place] ^= 1 << pick.randrange(8)
        elif kind == 5:
            data[place], data[other] = data[other], data[place]
        else:
            digits = [at for at, byte in enumerate(data) if byte in b"0123456789"]
            if digits:
                data[pick.choice(digits)] = pick.choice(b"0123456789.E-+ ")
    return bytes(data)


def big(pick: random.Random) -> bytes:
    """A network of many nodes and steps."""
    style = pick.choice([USUAL, USUAL, MODERATE, WILD])
    return rendered(
        network(pick, style=style, nodes=pick.randint(20, 60), steps=pick.randint(20, 300)).deck.cards(pick)
    )


def switchy(pick: random.Random) -> bytes:
    """Few nodes, many switches, and current sources in joined groups."""
    sizes = {"nodes": pick.randint(2, 7), "steps": pick.randint(2, 25)}
    made = network(pick, 0, style=pick.choice([MODERATE, USUAL]), **sizes)
    nodes = [name for name in made.nodes if name not in made.fed] + ["SW1", "SW2", "SW3"]
    nodes += [pick.choice(made.fed)] if made.fed and coin(pick, 0.3) else []
    nodes += [""] if coin(pick, 0.25) else []
    for _ in range(pick.randint(2, 9)):
        start, end = pick.sample(nodes, 2)
        made.time_switch(start, end, pick.choice([None, None, True]))
    for _ in range(pick.randint(0, 3)):
        made.source(pick.choice(made.nodes), True)
    return rendered(made.deck.cards(pick))


def blocky(pick: random.Random) -> bytes:
    """Many blocks with limits, formulas and devices over a small network, with channels of them all."""
    steps = pick.choice([pick.randint(3, 20), pick.randint(20, 120)])
    made = None
    while made is None or len(made.defined) < 3:
        made = network(pick, 1, style=pick.choice([MODERATE, USUAL, WILD]), nodes=pick.randint(1, 3), steps=steps)
    outputs = made.deck.control[OUTPUTS] = []
    for place, name in enumerate(made.defined[:26]):
        if place % 13 == 0:
            outputs.append(Card("control output"))
        outputs[-1].set(f"output{place % 13}", name)
    return rendered(made.deck.cards(pick))


def ends(pick: random.Random) -> bytes:
    """A case with a few numbers at the ends of what can be computed, or with a very small tolerance."""
    steps = pick.choice([pick.randint(1, 10), pick.randint(5, 60)])
    made = network(pick, 0.25, style=pick.choice([MODERATE, USUAL]), nodes=pick.randint(1, 8), steps=steps)
    cards = made.deck.cards(pick)
    if coin(pick, 0.35):
        cards = [card for card in cards if card.kind != "tolerance"]
        place = next(place for place, card in enumerate(cards) if card.kind == "first miscellaneous")
        cards.insert(place, Card("tolerance", "RESIDUAL TOLERANCE").set("tolerance", pick.choice(TOLERANCES)))
        return rendered(cards)
    changed = [card for card in cards if card.kind in AT_THE_ENDS]
    for _ in range(pick.randint(1, 6) if changed else 0):
        chosen = pick.choice(changed)
        name = pick.choice(list(AT_THE_ENDS[chosen.kind]))
        if chosen.kind not in ("series", "line", "second phase") or not bytes(chosen.text[14:26]).strip():
            chosen.set(name, pick.choice(AT_THE_ENDS[chosen.kind][name].split()), "right")
    return rendered(cards)


# ---- what the tools want


def resonant(pick: random.Random) -> bytes:
    """A current source over a chain of circuits with resonances, for a scan."""
    deck = Deck()
    deck.head = [Card("begin", "BEGIN NEW DATA CASE"), card("first miscellaneous", step="1.E-4", end="1.E-3")]
    deck.head.append(card("second miscellaneous", printed="1", every="1"))

    def some() -> str:
        return spell(pick, pick.randint(1, 500), pick.choice([-1, 0, -2]), 6)

    number = pick.randint(1, 5)
    for place in range(number):
        following = f"N{place + 1}" if place + 1 < number else ""
        for end in [following] + [""] * pick.randrange(3):
            made, kind = card("series", from_=f"N{place}", to=end), pick.random()
            for name, wanted in (("R", kind < 0.7), ("L", kind > 0.3), ("C", kind > 0.6 or kind < 0.2)):
                if wanted:
                    made.set(name, some())
            deck.branches.append(made)
    if coin(pick, 0.3):
        far = card("line", type="-1", from_="N0", to="FAR", A="300.", B="1.E-3", length="1.", form="2")
        deck.branches.append(far)
    amplitude = spell(pick, pick.randint(1, 99), pick.choice([-1, 0]), 10)
    deck.sources.append(card("source 14", type="14", name="N0", current="-1", amplitude=amplitude, frequency="50."))
    deck.outputs.append(card("output", mark="1"))
    return rendered(deck.cards(pick))


def steady(pick: random.Random, purpose: str) -> bytes:
    """A case for a steady state, or for a scan."""
    sizes = {"nodes": pick.randint(1, 10)} if coin(pick, 0.8) else {}
    return rendered(network(pick, purpose=purpose, **sizes).deck.cards(pick), ends_of_lines(pick), pick)


def phasor(pick: random.Random) -> bytes:
    """A case for a steady state; few are of any kind."""
    kind = pick.random()
    return valid(pick) if kind < 0.1 else steady(pick, "scan" if kind < 0.32 else "phasor")


def scan(pick: random.Random) -> bytes:
    """A case for a scan; few are of any kind."""
    kind = pick.random()
    return valid(pick) if kind < 0.1 else resonant(pick) if kind < 0.5 else steady(pick, "scan")


def batch(pick: random.Random) -> bytes:
    """A case for a batch, mostly with time switches."""
    kind = pick.random()
    if kind < 0.4:
        return switchy(pick)
    if kind < 0.52:
        return valid(pick)
    return rendered(network(pick, 0.2, nodes=pick.randint(2, 8), steps=pick.randint(1, 30)).deck.cards(pick))


def mix(pick: random.Random) -> bytes:
    """A good case, a spoiled one, or spoiled bytes."""
    return pick.choice([valid] * 5 + [broken] * 4 + [spoiled_bytes])(pick)


PROFILES: dict[str, Callable[[random.Random], bytes]] = {
    "mix": mix,
    "valid": valid,
    "broken": broken,
    "edge": edge,
    "bytes": spoiled_bytes,
    "switchy": switchy,
    "blocky": blocky,
    "ends": ends,
    "big": big,
    "phasor": phasor,
    "scan": scan,
    "batch": batch,
}


def case(seed: str, profile: str, number: int) -> bytes:
    """The case of this number; it depends on nothing else."""
    return PROFILES[profile](random.Random(f"{seed} {profile} {number}"))
