"""What emtp_show prints (docs/show.md): the patterns of its lines, and what else has to hold of them."""
import re

BAD_CARD = rb"BAD CARD LINE (?P<line>\d+) COLUMN \d+ REASON \d+ [A-Za-z0-9]+\n"

# The tables below have texts in which `<part>` stands for one part of these, and `<part>*` for any number of them.
PARTS = {
    "count": rb"(?:0|[1-9]\d*)",
    "number": rb"(?!-0(?!\.))-?(?:0|[1-9]\d*)(?:\.\d*[1-9])?",
    "name": rb"(?! )[ -+\--~]{1,6}(?<! )",
    "variable": rb"[A-Za-z][A-Za-z0-9]{0,5}",
    "field": rb"[A-Z](?:[A-Z0-9/-]*[A-Z0-9])?",
    "written": rb"[0-9+.DEde-]{1,16}",
}
CHOICES = {
    "time": ["never", "<number> s"],
    "node": ["(ground)", "<name>"],
    "control": ["(always)", "<name>"],
    "choice": ["(no variable)", "<name>"],
    "factor": ["<number>", "<number> s", "<number> Hz"],
    "clean": ["", ", none with L=<number> mH"],
    "low": ["no low limit", "fixed low limit=<number>", "variable low limit=<name>"],
    "high": ["no high limit", "fixed high limit=<number>", "variable high limit=<name>"],
    "power": [f", s^{power}=<number>" for power in range(8)],
    "input": [", input=+<name>", ", input=-<name>"],
    "named": [", names=<name>"],
    "opening": ["(-", "(.NOT. ", "ABS(", "SQRT(", "TRUNC(", "SIGN("],
    "binary": ["+", "-", "*", "/", ".GT.", ".GE.", ".LT.", ".LE.", ".EQ.", ".NE.", ".AND.", ".OR."],
    "term": ["<number>", "<variable>"],
    "word": ["<opening>", "(", ")", " <binary> ", "<term>"],
    "shape": ["step", "ramp, T0=<number> s", "cosine, frequency=<number> Hz, phase=<number> turn, angle=<number> degree",
              "driven, control=<name>", "pulse, period=<number> s, width=<number> s", "sawtooth, period=<number> s",
              "voltage of a node, node=<node>", "current of a switch, switch=<count>", "state of a switch, switch=<count>"],
    "resistance": ["point <count>, current=<number> A, voltage=<number> V\n"],
    "reactance": ["point <count>, current=<number> A, flux=<number> Wb\n"],
    "pair": ["point <count>, input=<number>, output=<number>\n", "point <count>, close=<number> s, open=<number> s\n"],
    "card": ["the card BEGIN NEW DATA CASE", "the card RESIDUAL TOLERANCE", "the first miscellaneous card",
             "the second miscellaneous card", "the card TACS HYBRID", "a vintage card", "a branch card", "a switch card",
             "a source card", "a node output card", "a card after the last section", "a block card", "a card of coefficients",
             "a TACS source", "a supplemental card", "a TACS output", "an initial condition",
             "a point or the card that ends them"],
    "columns": ["not read", "two numbers touch: <field>=<written>, <field>=<written>",
                "the name may be the next field's, which is blank", "no other branch, switch or source has the node", "node 0 is not ground",
                "another node's name differs in case alone",
                "after the end of the run", "cosine of frequency 0", "every case starts at rest", "the source never acts",
                "opens before it closes"],
}

CASE = ("case, nodes=<count> of 1000, variables=<count>, branches=<count> of 5000, three-phase lines=<count>, "
        "switches=<count> of 500, sources=<count> of 500, control sources=<count> of 200, blocks=<count> of 200, "
        "supplemental cards=<count> of 200, channels=<count> of 64\n")
RUN = "run, DELTAT=<number> s, steps=<count> of 1000000, IPLOT=<count>, tolerance=<number> A\n"
RECORD = ("record, end=<number> s, samples=<count>, analog channels=<count>, status channels=<count>, "
          "values=<count> of 4000000, history values=<count> of 2000000\n")
# The records of each kind that the first line counts, in its order, which is that of the listing.
RECORDS = [
    ["node <count>, name=<name>\n"],
    ["variable <count>, name=<name>\n"],
    ["line <count>, series branch, BUS1=<node>, BUS2=<node>, R=<number> ohm, L=<number> mH, C=<number> uF\n",
     "line <count>, line, BUS1=<node>, BUS2=<node>, surge impedance=<number> ohm, R=<number> ohm, travel time=<number> s\n",
     "line <count>, phase of a line, BUS1=<node>, BUS2=<node>, three-phase line=<count>, phase=<count>\n",
     "line <count>, nonlinear resistor, BUS1=<node>, BUS2=<node>, first point=<count>, points=<count>\n<resistance>*",
     "line <count>, nonlinear reactor, BUS1=<node>, BUS2=<node>, first point=<count>, points=<count>\n<reactance>*"],
    ["modes, first branch=<count>, zero surge impedance=<number> ohm, zero R=<number> ohm, zero travel time=<number> s, "
     "positive surge impedance=<number> ohm, positive R=<number> ohm, positive travel time=<number> s\n"],
    ["line <count>, time switch, BUS1=<node>, BUS2=<node>, T-CLOSE=<number> s, T-OPEN=<time>, margin=<number> A\n",
     "line <count>, measuring switch, BUS1=<node>, BUS2=<node>\n",
     "line <count>, valve, BUS1=<node>, BUS2=<node>, ignition=<number> V, holding=<number> A, control=<control>\n",
     "line <count>, controlled switch, BUS1=<node>, BUS2=<node>, control=<name>\n"],
    ["line <count>, voltage source, NAME=<node>, amplitude=<number> V, TSTART=<number> s, TSTOP=<time>, <shape>\n",
     "line <count>, current source, NAME=<node>, amplitude=<number> A, TSTART=<number> s, TSTOP=<time>, <shape>\n"],
    ["line <count>, control source, NAME=<name>, amplitude=<number>, TSTART=<number> s, TSTOP=<time>, <shape>\n"],
    ["line <count>, block, NAME=<name>, order=<count>, gain=<number>, <low>, <high>, inputs=<count><input>*\n"
     "numerator<power>*\ndenominator<power>*\n"],
    ["line <count>, device, NAME=<name>, card=<count>, code=<count>, A=<factor>, B=<number>, C=<number>, D=<choice>, "
     "E=<choice>, first point=<count>, points=<count>, inputs=<count><input>*\n<pair>*",
     "line <count>, formula, NAME=<name>, card=<count>, variables=<count><named>*, value=<word>*\n"],
    ["channel <count>, node voltage, node=<node>, name=V <name>, analog channel=<count>\n",
     "channel <count>, branch current, branch=<count>, name=I <name>-<name>, analog channel=<count>\n",
     "channel <count>, branch voltage, branch=<count>, name=U <name>-<name>, analog channel=<count>\n",
     "channel <count>, switch current, switch=<count>, name=I <name>-<name>, analog channel=<count>\n",
     "channel <count>, switch voltage, switch=<count>, name=U <name>-<name>, analog channel=<count>\n",
     "channel <count>, variable of the control, variable=<name>, name=T <name>, analog channel=<count>\n",
     "channel <count>, switch state, switch=<count>, name=S <name>-<name>, status channel=<count>\n"],
]
# What the cards of an accepted case say besides, and the warnings.
CARDS = ["line <count>, first miscellaneous card, TMAX=<number> s\nline <count>, second miscellaneous card, IOUT=<number>\n"]
COPIES = ["line <count>, copies line=<count>\n"]
ASKING = ["line <count>, asks for channel=<count>\n"]
LINE_WARNINGS = ["warning, line <count>, columns <count>-<count>, <columns>\n",
                 "warning, line <count>, travel time below two steps\n",
                 "warning, line <count>, travel time after the end of the run\n",
                 "warning, line <count>, a capacitance below 1 pF; C is in uF\n",
                 "warning, line <count>, the rounding of its conductance acts as a resistance in series: r=<number> ohm, "
                 "r T/L=<number><clean>\n",
                 "warning, line <count>, R acts as another one: R + r=<number> ohm\n",
                 "warning, line <count>, C acts as another one: acting C=<number> uF\n",
                 "warning, line <count>, C acts as a wire\n",
                 "warning, line <count>, an arrester at a line's end without the capacitance of ten steps: a steep wave makes "
                 "voltages off its characteristic\n",
                 "warning, line <count>, closed beside a switch between the same nodes: one of the two carries nothing\n"]
CHANNEL_WARNINGS = ["warning, channel <count>, asked for twice\n"]


def pattern(text):
    """The pattern of a text of the tables."""
    found = b""
    for piece in re.split(r"(<[a-z]+>\*?)", text):
        part = re.fullmatch(r"<([a-z]+)>(\*?)", piece)
        if part is None:
            found += re.escape(piece.encode())
        elif part[1] in PARTS:
            found += PARTS[part[1]]
        else:
            found += any_of(CHOICES[part[1]]) + part[2].encode()
    return found


def any_of(texts):
    """The pattern of one of these texts."""
    return b"(?:" + b"|".join(map(pattern, texts)) + b")"


HEAD = re.compile(pattern(CASE + RUN + RECORD))
KINDS = [re.compile(any_of(kind)) for kind in RECORDS]
LISTED = rb"(?P<listed>" + HEAD.pattern + b"".join(kind.pattern + b"*" for kind in KINDS) + rb")"
ASKED = rb"(?P<asked>" + any_of(ASKING) + rb"*)"
WARNED = any_of(LINE_WARNINGS) + b"*" + any_of(CHANNEL_WARNINGS) + b"*"
# as what the refused card was read, or which card is due where the file ends
TOLD = rb"line (?P=line): (?:read as " + pattern("<card>") + rb"|the file ends where " + pattern("<card>") + rb" is due)\n"
# as what each line is read, and which card is due behind the last one
READ = re.compile(rb"(?:\d+\t(?:" + pattern("<card>") + rb"|the end of a section)\n)*(?:\d+\tdue: " + pattern("<card>") + rb"\n)?")
# an operator or a function of numbers and variables, behind no name
APPLIED = re.compile(rb"(?<![A-Za-z0-9])(?:" + any_of(["<opening><term>)", "(<term> <binary> <term>)"]) + rb")")
# what helps to mend a card
MENDS = re.compile(rb"(?:(?:[ -~]*\n){1,3}Line (?P<line>\d+) is read as [ -~]+\.\n|The case ends behind line \d+, where [ -~]+ is due;"
                   rb" a line BLANK ends a section\.\n)(?:The [A-Za-z ]+ ended at line \d+(?:, which is blank)?\.\n)*|The case has more [ -~]+\.\n")
NOTES = {
    0: re.compile(rb"(?P<count>" + PARTS["count"] + rb")\n|" + WARNED + LISTED + any_of(CARDS) + any_of(COPIES) + b"*" + ASKED),
    1: re.compile(rb"USAGE\n"),
    2: re.compile(LISTED + rb"?" + BAD_CARD + TOLD),
}


def numbers(start, text):
    """The number of each line that begins with this pattern and a number."""
    return [int(number) for number in re.findall(rb"^" + start + rb"(\d+)", text, re.MULTILINE)]


def is_expression(text):
    """Whether each operator and its sides, and what each function works on, stand in parentheses."""
    applied = None
    while applied != text:
        applied, text = text, APPLIED.sub(b"0", text)
    return re.fullmatch(pattern("<term>"), text) is not None


def listing_complaint(listed):
    """What is wrong with a listing whose lines have their forms and their order, or None."""
    head = HEAD.match(listed)
    counts = [int(count) for count in re.findall(rb"=(\d+)", head[0].split(b"\n")[0])]
    at = head.end()
    for count, kind in zip(counts, KINDS):
        for _ in range(count):
            record = kind.match(listed, at)
            if record is None:
                return "fewer records of a kind than the first line says"
            at = record.end()
    if at != len(listed):
        return "more records than the first line says"
    for text in re.findall(rb", value=(.*)\n", listed):
        if not is_expression(text):
            return f"{text.decode()}, which is no expression with its parentheses"
    for word, first in (b"node ", 1), (b"variable ", 0), (b"channel ", 1):
        found = numbers(word, listed)
        if found != list(range(first, first + len(found))):
            return f"lines {word.decode()}that aren't in turn"
    return None


def complaint(said):
    """What is wrong with what was printed, a match of the pattern of its status, or None."""
    parts = said.groupdict()
    listed, asked = parts.get("listed"), parts.get("asked")
    if listed is None:
        return None
    if asked is not None and numbers(rb"line \d+, asks for channel=", asked) != numbers(b"channel ", listed):
        return "channels that no card asks for, or that aren't in turn"
    warned = numbers(b"warning, line ", said[0])
    if warned != sorted(warned):
        return "warnings that don't go by lines"
    return listing_complaint(listed)


def refusal(note):
    """The line of a refused card in what is printed, or nothing where there is none."""
    found = re.search(rb"^" + BAD_CARD, note, re.MULTILINE)
    return found[0] if found else b""


def warning_count(note):
    """How many warnings stand before a listing."""
    return len(re.findall(rb"^warning, ", note, re.MULTILINE))
