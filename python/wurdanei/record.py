"""Reads COMTRADE records: editions 1991, 1999 and 2013; ASCII, BINARY, BINARY32 and FLOAT32; cfg with dat, or one
cff.

    record = read("x.cfg")             # x.dat beside it; or read("x.cfg", "y.dat"), or read("x.cff")
    record.channel("I BUS-SEND")       # primary values in the channel's unit, nan where missing
    record.times                       # s from the first sample

What a file lacks or contradicts is a `RecordError` that names file, line or byte and cause. What is unusual but
lawful is in `told`, each once. Source: IEEE C37.111 of 1991, 1999 and 2013.
"""

from __future__ import annotations

import codecs
import contextlib
import copy
import html
import math
import mmap
import os
import re
import shutil
import stat
import tempfile
import zipfile
import zlib
from dataclasses import dataclass, field, replace
from datetime import datetime
from typing import IO, TYPE_CHECKING, BinaryIO, Iterable, Iterator, cast

import numpy as np

from .configuration import Analog, Clock, Configuration, RecordError, State, read_configuration, tell
from .resample import at_rate
from .samples import Samples, Values, Whole, line_of, read_samples

if TYPE_CHECKING:
    import pandas
    import xarray

    from .drawing import Drawing

__all__ = ["Record", "RecordError", "UnknownChannel", "read"]

LONGEST_HEAD = 200  # bytes of the line that begins a section of a cff
ZIP = b"PK\x03\x04"  # with which a zip begins
MOST_RESAMPLED = 50_000_000  # samples of a record at another rate
LONGEST_TEXT = 1 << 20  # bytes of a header or an information file that are kept
MOST_UNPACKED = 1 << 32  # bytes of a record in a zip
BLOCK = 1 << 16  # samples whose times are made or compared at once, so that little memory is taken
SECTION = re.compile(
    rb"-{3}\s*file\s+type\s*:\s*(\w+)(?:\s+(\w+))?\s*(?::\s*(\d{1,15})\s*)?-{3}\s*", re.IGNORECASE | re.ASCII
)


class UnknownChannel(RecordError, KeyError):
    """A channel that a record doesn't have."""

    __str__ = RecordError.__str__


@dataclass(eq=False, repr=False)
class Record:
    """A record. Its channels are read on demand from what the file holds."""

    path: str  # empty where it is in no file
    station: str
    device: str
    revision: int  # 1991, 1999 or 2013
    form: str  # "ASCII", "BINARY", "BINARY32" or "FLOAT32"; "INT64" with all digits of a run, "FLOAT64"
    # of other samples than the file has
    times: np.ndarray = field(
        repr=False
    )  # shape (samples,), float64, s from the first sample's instant; skew not applied
    names: list[str]  # analog channels; a name that stands twice gets .2, .3
    units: list[str]  # as the file has them
    phases: list[str]
    circuits: list[str]  # the circuit component that is monitored
    state_names: list[str]  # status channels
    frequency: float  # line frequency in Hz, nan where blank
    trigger: float  # s, on the scale of `times`; nan where an instant is blank
    start: datetime | None  # instant of the first sample, to the us
    rates: list[tuple[float, int]]  # Hz, number of the last sample; empty where times come from time stamps
    told: list[str]  # what is unusual but lawful, each once
    header: str = field(default="", repr=False)  # the text of the header (hdr), empty where there is none
    information: str = field(default="", repr=False)  # that of the information file (inf)
    _configuration: Configuration = field(kw_only=True)
    _samples: Samples = field(kw_only=True)

    @property
    def clock(self) -> Clock:
        """What edition 2013 says of the recorder's clock."""
        return self._configuration.clock

    @property
    def normal(self) -> dict[str, int | None]:
        """The state that each status channel has in a sound network; None where nothing says it."""
        return {name: own.normal for name, own in zip(self.state_names, self._configuration.states)}

    def channel(self, name: str) -> np.ndarray:
        """Primary values of an analog channel in its unit: shape (samples,), float64, nan where missing."""
        place = self._place(name)
        own = self._configuration.analogs[place]
        values = self._samples.raw(place)
        missing = np.isnan(values)
        with np.errstate(over="ignore", invalid="ignore"):
            values *= own.multiplier
            values += own.offset
            if own.scaling == "S":
                values *= own.primary / own.secondary
        if not (np.isfinite(values) | missing).all():
            raise RecordError(
                f"{self._configuration.path}: line {own.line}: a value of {name} leaves the range of numbers"
            )
        return values

    def skew(self, name: str) -> float:
        """How much later than `times` an analog channel is sampled, in s."""
        return self._configuration.analogs[self._place(name)].skew

    def times_of(self, name: str) -> np.ndarray:
        """The times of a channel's values, its skew applied: shape (samples,), float64, s."""
        skew = 0.0 if name in self.state_names else self.skew(name)
        return self.times + skew if skew else self.times

    def states(self, name: str) -> np.ndarray:
        """States of a status channel: shape (samples,), uint8, 0 or 1."""
        if name not in self.state_names:
            raise UnknownChannel(f"{self._where}: no status channel {name!r}; it has {listed(self.state_names)}")
        return self._samples.state(self.state_names.index(name))

    def missing(self, name: str) -> int:
        """How many values of an analog channel are missing."""
        return int(np.isnan(self._samples.raw(self._place(name))).sum())

    def multiplier(self, name: str) -> float:
        """What a raw value of 1 is in primary values, in the unit of the channel; nan in the forms of floating numbers."""
        own = self._configuration.analogs[self._place(name)]
        ratio = own.primary / own.secondary if own.scaling == "S" else 1.0
        return math.nan if self.form in ("FLOAT32", "FLOAT64") else abs(own.multiplier) * ratio

    @property
    def steps(self) -> dict[str, float]:
        """Of each analog channel, in its unit, the distance between two values that can be told apart; nan in the forms
        of floating numbers, of which FLOAT32 keeps 6e-8 of the value."""
        return {name: self.multiplier(name) for name in self.names}

    def ratio(self, name: str) -> tuple[float, float]:
        """Primary and secondary side of a channel's instrument transformer; (1, 1) where none is named."""
        own = self._configuration.analogs[self._place(name)]
        return own.primary, own.secondary

    def secondary(self) -> list[str]:
        """The channels that are recorded as secondary values (`channel` answers primary ones)."""
        return [name for name, own in zip(self.names, self._configuration.analogs) if own.scaling == "S"]

    def __getitem__(self, name: str) -> np.ndarray:
        """The values of an analog channel, or the states of a status channel: shape (samples,)."""
        return self.states(name) if name in self.state_names else self.channel(name)

    def __contains__(self, name: object) -> bool:
        return name in self.names or name in self.state_names

    def __iter__(self) -> Iterator[str]:
        """The names of all channels, the analog ones first."""
        return iter([*self.names, *self.state_names])

    def keys(self) -> list[str]:
        """The names of all channels, the analog ones first."""
        return [*self.names, *self.state_names]

    def __len__(self) -> int:
        """How many channels there are; `times` has as many values as there are samples."""
        return len(self.names) + len(self.state_names)

    def __repr__(self) -> str:
        shown = ", ".join(self.keys()[:6]) + (f" and {len(self) - 6} more" if len(self) > 6 else "")
        span = f"{self.times[0]:g} to {self.times[-1]:g} s" if len(self.times) else "no time"
        return f"<Record {self.path or 'of a run'}: {len(self.times):,} samples, {span}; {shown or 'no channel'}>"

    def _repr_html_(self) -> str:
        """The channels as a table, for a notebook: unit, extremes, skew."""
        rows = []
        for name, unit in zip(self.names, self.units):
            values = self.channel(name)
            known = values[np.isfinite(values)]
            ends = [f"{it:.6g}" for it in (known.min(), known.max())] if len(known) else ["", ""]
            rows.append([name, unit, *ends, f"{1e6 * self.skew(name):g} us" if self.skew(name) else ""])
        rows += [[name, "state", *(str(int(it)) for it in self._ends(name)), ""] for name in self.state_names]
        lines = "".join("<tr>" + "".join(f"<td>{html.escape(it)}</td>" for it in row) + "</tr>" for row in rows)
        head = "".join(f"<th>{it}</th>" for it in ("channel", "unit", "least", "greatest", "skew"))
        told = "".join(f"<li>{html.escape(it)}</li>" for it in self.told)
        return f"<p>{html.escape(repr(self).strip('<>'))}</p><table><tr>{head}</tr>{lines}</table><ul>{told}</ul>"

    def _ends(self, name: str) -> tuple[int, int]:
        states = self.states(name)
        return (int(states.min()), int(states.max())) if len(states) else (0, 0)

    def sel(self, begin: float | None = None, end: float | None = None) -> Record:
        """The samples from one time to another, in s of the record, both among them; their times stay as they are."""
        first = 0 if begin is None else int(np.searchsorted(self.times, begin - _slack(begin)))
        last = len(self.times) if end is None else int(np.searchsorted(self.times, end + _slack(end), "right"))
        if first >= last:
            raise RecordError(
                f"{self._where}: no sample from {begin} to {end} s; it has {self.times[0]:g} to {self.times[-1]:g} s"
            )
        values = {name: self.channel(name)[first:last] for name in self.names}
        states = {name: self.states(name)[first:last] for name in self.state_names}
        return self._made_of(self.times[first:last], values, states, [])

    def resample(self, hz: float) -> Record:
        """The channels at another rate, their skew taken away: behind a low-pass where it is lower (docs/record.md has
        its bounds), on straight lines where it is higher; states as they stand at each time."""
        if not 0 < hz < math.inf:
            raise RecordError(f"a rate is a number of samples a second above 0, and here {hz}")
        span = float(self.times[-1] - self.times[0])
        if span * hz > MOST_RESAMPLED:
            raise RecordError(f"{span:g} s at {hz:g} Hz are more than {MOST_RESAMPLED:,} samples")
        times = self.times[0] + np.arange(int(span * hz * (1 + 1e-12)) + 1) / hz
        values = {name: at_rate(self.times_of(name), self.channel(name), times, hz) for name in self.names}
        place = np.clip(np.searchsorted(self.times, times + _slack(span), "right") - 1, 0, None)
        states = {name: self.states(name)[place] for name in self.state_names}
        return self._made_of(times, values, states, [(float(hz), len(times))], skewed=False)

    def _made_of(
        self,
        times: np.ndarray,
        values: dict[str, np.ndarray],
        states: dict[str, np.ndarray],
        rates: list[tuple[float, int]],
        skewed: bool = True,
    ) -> Record:
        """A record of other samples of the same channels: primary values, in no file."""
        analogs = [
            replace(own, multiplier=1.0, offset=0.0, scaling="P", skew=own.skew if skewed else 0.0)
            for own in self._configuration.analogs
        ]
        made = copy.copy(self)
        made.path, made.form, made.times, made.rates, made.told = "", "FLOAT64", times, rates, list(self.told)
        made._configuration = replace(self._configuration, path="the record", analogs=analogs)
        made._samples = Values(list(values.values()), list(states.values()), len(times))
        return made

    def frame(self) -> pandas.DataFrame:
        """All channels over the times in s; it needs pandas.

        Its `attrs` have `units` and `skews` (s) by the names of the channels. The index is the time of the samples, to
        which the skew of a channel isn't added: `resample` takes skews away.
        """
        try:
            import pandas
        except ImportError:
            raise RecordError("a frame needs pandas (Debian: python3-pandas)") from None
        made = pandas.DataFrame({name: self[name] for name in self.keys()}, index=pandas.Index(self.times, name="s"))
        made.attrs |= {
            "units": dict(zip(self.names, self.units)),
            "skews": {name: self.skew(name) for name in self.names},
            "told": list(self.told),
        }
        return made

    def to_xarray(self) -> xarray.Dataset:
        """All channels over the coordinate `time` in s; it needs xarray. Each variable has its `units` and `skew` (s) as
        attributes."""
        try:
            import xarray
        except ImportError:
            raise RecordError("a Dataset needs xarray (Debian: python3-xarray)") from None
        variables: dict[str, tuple[str, np.ndarray, dict[str, object]]] = {}
        for name, unit, phase in zip(self.names, self.units, self.phases):
            variables[name] = ("time", self.channel(name), {"units": unit, "skew": self.skew(name), "phase": phase})
        for name in self.state_names:
            variables[name] = ("time", self.states(name), {"units": "1"})
        own = {"station": self.station, "device": self.device, "frequency": self.frequency, "trigger": self.trigger}
        coords = {"time": ("time", self.times, {"units": "s"})}
        return xarray.Dataset(variables, coords, own | {"start": str(self.start or ""), "told": list(self.told)})

    def plot(
        self,
        *names: str,
        path: str | os.PathLike[str] | None = None,
        begin: float | None = None,
        end: float | None = None,
    ) -> Drawing:
        """Draws channels (all without names) between two times in s: into a picture, which needs matplotlib, or a page
        where the path ends with .html; answers the drawing, which a notebook shows."""
        from . import plot

        return plot.drawn(self, names, path, begin, end)

    @property
    def _where(self) -> str:
        """What an error says that it is of."""
        return self.path or "the record"

    def _place(self, name: str) -> int:
        """The place of an analog channel, from 0."""
        if name not in self.names:
            raise UnknownChannel(f"{self._where}: no analog channel {name!r}; it has {listed(self.names)}")
        return self.names.index(name)


def read(
    path: str | os.PathLike[str] | BinaryIO,
    dat: str | os.PathLike[str] | BinaryIO | None = None,
    *,
    lenient: bool = False,
    encoding: str | None = None,
) -> Record:
    """The record of a cfg (with the dat beside it, or the one that is named), of a cff, or of a zip that holds one
    record.

    Both may be files that are open for reading bytes. `lenient` reads what recorders write against the standard, where
    it has one meaning, and tells each of it; `encoding` is that of the texts, where it is neither UTF-8 nor
    Windows-1252.
    """
    if encoding is not None and not _is_encoding(encoding):
        raise RecordError(f"there is no encoding {encoding!r} for texts")
    name = _name(path)
    try:
        with contextlib.ExitStack() as stack:
            file = stack.enter_context(_opened(path))
            if file.read(len(ZIP)) == ZIP:
                if dat is not None:
                    raise RecordError(f"{name}: it has its data in itself (zip), and {_name(dat)} is named as well")
                name, file, dat = _unpacked(name, file, stack)
            file.seek(0)
            if is_one_file(file):
                if dat is not None:
                    raise RecordError(f"{name}: it has its data in itself (cff), and {_name(dat)} is named as well")
                configuration, start, size, texts = read_sections(name, file, lenient, encoding)
                return made(name, configuration, read_samples(configuration, name, file, start, size), texts)
            if name.lower().endswith(".dat"):
                raise RecordError(f"{name}: this is the data; name the configuration ({os.path.splitext(name)[0]}.cfg)")
            configuration = read_configuration(name, file.read(), 0, 0, lenient, encoding)
            if dat is None and not isinstance(path, (str, bytes, os.PathLike)):
                raise RecordError(f"{name}: the data of an open configuration have to be named too")
            given: str | os.PathLike[str] | BinaryIO = data_beside(name) if dat is None else dat
            data = stack.enter_context(_opened(given))
            samples = read_samples(configuration, _name(given), data, 0, os.fstat(data.fileno()).st_size)
            texts = _texts_beside(name, configuration, encoding) if dat is None else ("", "")
        return made(name, configuration, samples, texts)
    except OSError as fault:
        raise RecordError(f"{fault.filename or name}: {fault.strerror or fault}") from None
    except MemoryError:
        raise RecordError(f"{name}: there isn't enough memory for it") from None


def _is_encoding(name: str) -> bool:
    try:
        return bool(codecs.lookup(name))
    except LookupError:
        return False


def _name(file: str | os.PathLike[str] | BinaryIO) -> str:
    """What a file is called."""
    if isinstance(file, (str, bytes, os.PathLike)):
        return os.fsdecode(file)
    return str(getattr(file, "name", "the file"))


def _opened(file: str | os.PathLike[str] | BinaryIO) -> BinaryIO:
    """A file for reading; one that is open already is copied, so that it stays as it is."""
    if isinstance(file, (str, bytes, os.PathLike)):
        return opened(os.fsdecode(file))
    return _copied(file)


def _copied(file: IO[bytes]) -> BinaryIO:
    """What an open file holds from where it stands, as a plain file that goes with its closing."""
    made = cast(BinaryIO, tempfile.TemporaryFile())
    try:
        shutil.copyfileobj(file, made)
    except (TypeError, AttributeError):
        made.close()
        raise RecordError(f"{_name(cast(BinaryIO, file))}: it isn't open for reading bytes") from None
    made.seek(0)
    return made


def _unpacked(name: str, file: BinaryIO, stack: contextlib.ExitStack) -> tuple[str, BinaryIO, BinaryIO | None]:
    """The one record of a zip: the name and the file of its configuration or its cff, and the file of its data."""
    try:
        pack = stack.enter_context(zipfile.ZipFile(file))
        members = {it.filename: it for it in pack.infolist() if not it.is_dir()}
        heads = [it for it in members if it.lower().endswith((".cfg", ".cff"))]
        if len(heads) != 1:
            raise RecordError(f"{name}: it holds {len(heads)} records ({listed(heads)}), and one is read")
        stem, ending = os.path.splitext(heads[0])
        datas = [it for it in members if it.lower() == stem.lower() + ".dat"]
        wanted = [heads[0], *(datas[:1] if ending.lower() == ".cfg" else [])]
        if ending.lower() == ".cfg" and not datas:
            raise RecordError(f"{name}: {stem}.dat is missing beside {heads[0]}")
        if sum(members[it].file_size for it in wanted) > MOST_UNPACKED:
            raise RecordError(f"{name}: more than {MOST_UNPACKED:,} bytes aren't unpacked")
        files = [stack.enter_context(_copied(stack.enter_context(pack.open(it)))) for it in wanted]
    except (zipfile.BadZipFile, NotImplementedError, RuntimeError, EOFError, zlib.error) as fault:
        raise RecordError(f"{name}: {fault}") from None
    return f"{name}/{heads[0]}", files[0], files[1] if len(files) > 1 else None


def _texts_beside(path: str, own: Configuration, encoding: str | None) -> tuple[str, str]:
    """The texts of the header (hdr) and of the information file (inf) beside a cfg; empty where there is none."""
    stem, ending = os.path.splitext(path)
    found = []
    for kind in (".hdr", ".inf"):
        name = stem + (kind.upper() if ending.isupper() else kind)
        try:
            with opened(name) as file:
                found.append(text_of(file.read(LONGEST_TEXT), encoding))
        except (OSError, RecordError):
            found.append("")
    return found[0], found[1]


def text_of(data: bytes, encoding: str | None) -> str:
    """The text of a header or an information file, as that of a configuration, but that what isn't text is shown so."""
    try:
        return data.decode(encoding or "utf-8")
    except UnicodeDecodeError:
        return data.decode(encoding or "cp1252", "replace")


def channel_names(path: str) -> list[tuple[str, str]]:
    """Names and units of the analog channels that a cfg names; its data needn't be there."""
    try:
        with opened(path) as file:
            own = read_configuration(path, file.read())
    except OSError as fault:
        raise RecordError(f"{fault.filename or path}: {fault.strerror or fault}") from None
    return list(zip(distinct(analog_names(own), set(), []), (channel.unit for channel in own.analogs)))


def analog_names(own: Configuration) -> list[str]:
    """The names of the analog channels, a blank one by its number."""
    return [channel.name or f"analog {at}" for at, channel in enumerate(own.analogs, 1)]


def opened(path: str) -> BinaryIO:
    """A file for reading; a folder, a pipe or a device is none."""
    try:
        if not stat.S_ISREG(os.stat(path).st_mode):
            raise RecordError(f"{path}: it is no plain file")
        return open(path, "rb")
    except ValueError as fault:  # a zero byte in the name
        raise RecordError(f"{path!r}: {fault}") from None


def data_beside(path: str) -> str:
    """The dat of a cfg: of the same name but for its ending, in any case of letters."""
    stem, ending = os.path.splitext(path)
    folder, base = os.path.split(stem)
    exact = [base + (".DAT" if ending.isupper() else ".dat"), base + ".dat", base + ".DAT"]
    there = sorted(name for name in os.listdir(folder or ".") if name.lower() == base.lower() + ".dat")
    for name in [*exact, *there]:
        if name in there:
            return os.path.join(folder, name)
    raise RecordError(f"{path}: the data isn't beside it: {stem}.dat is missing")


def is_one_file(file: BinaryIO) -> bool:
    """The file begins with the line of a section, as a cff does; the file is at its begin then."""
    front = file.read(LONGEST_HEAD).removeprefix(b"\xef\xbb\xbf")
    file.seek(0)
    return bool(SECTION.match(front))


def sections(file: BinaryIO) -> Iterator[tuple[int, int, re.Match]]:
    """The lines of a cff that begin a section: the byte at which each stands, that behind it, and the line itself."""
    with mmap.mmap(file.fileno(), 0, access=mmap.ACCESS_READ) as data:
        at = data.find(b"---")
        while at >= 0:
            line = data[at : at + LONGEST_HEAD].split(b"\n", 1)[0]
            match = SECTION.fullmatch(line.rstrip(b"\r"))
            if match:
                yield at, min(at + len(line) + 1, len(data)), match
            at = data.find(b"\n---", at) + 1 or -1


def read_sections(
    path: str, file: BinaryIO, lenient: bool = False, encoding: str | None = None
) -> tuple[Configuration, int, int, tuple[str, str]]:
    """The configuration of a cff, the first byte and the size of its data, and its header and information."""
    begin = end = None  # of the configuration
    last, texts = (b"", 0), {b"HDR": (0, 0), b"INF": (0, 0)}  # the section before, and where its text begins
    for at, behind, match in sections(file):
        kind = match[1].upper()
        if last[0] in texts:
            texts[last[0]] = last[1], at
        last = kind, behind
        if begin is not None and end is None:
            end = at
        if kind == b"DAT":
            break
        if kind == b"CFG" and begin is not None:
            raise RecordError(f"{path}: line {line_of(file, at)}: a second section CFG")
        if kind == b"CFG":
            begin = behind
        elif kind not in (b"INF", b"HDR"):
            raise RecordError(
                f"{path}: line {line_of(file, at)}: the section {kind.decode()} is none of CFG, INF, HDR and DAT"
            )
    else:
        raise RecordError(f"{path}: it has no section DAT")
    if begin is None or end is None:
        raise RecordError(f"{path}: it has no section CFG before line {line_of(file, at)}, where the data begins")
    before = line_of(file, begin) - 1
    text, line, at, whole = file.read(end - begin), line_of(file, at), behind, os.fstat(file.fileno()).st_size
    configuration = read_configuration(path, text, before, begin, lenient, encoding)
    header, information = (_part(file, *texts[kind], encoding) for kind in (b"HDR", b"INF"))
    form = (match[2] or b"").decode().upper()
    if form != configuration.form:
        raise RecordError(
            f"{path}: line {line}: the section has the form {form or 'of no name'}, the CFG {configuration.form}"
        )
    size = whole - at if match[3] is None else int(match[3])
    if size > whole - at:
        raise RecordError(
            f"{path}: line {line}: {size} bytes of data are announced, and {whole - at} are there: it is cut"
        )
    if size < whole - at:
        file.seek(at + size)
        if file.read(1000).strip(b" \t\r\n\x1a\0"):
            tell(configuration.told, f"what stands behind the data of {path}, from byte {at + size + 1} on, isn't read")
    if match[3] is None and form != "ASCII":
        tell(
            configuration.told, "the section of the data names no number of bytes: all to the end of the file is taken"
        )
    return configuration, at, size, (header, information)


def _part(file: BinaryIO, begin: int, end: int, encoding: str | None) -> str:
    """The text between two bytes of a file."""
    file.seek(begin)
    return text_of(file.read(min(end - begin, LONGEST_TEXT)), encoding).strip("\r\n")


def made(path: str, own: Configuration, samples: Samples, texts: tuple[str, str] = ("", "")) -> Record:
    """The record of a configuration and its samples, and of the texts of its header and information."""
    told = own.told
    times = sample_times(own, samples)
    names = distinct(analog_names(own), set(), told)
    bars = distinct([bar.name or f"status {at}" for at, bar in enumerate(own.states, 1)], set(names), told)
    trigger = math.nan
    if own.first and own.trigger:
        leap = leap_between(own)
        trigger = (own.trigger.nanoseconds - own.first.nanoseconds) * 1e-9 + leap
        if leap:
            tell(told, f"a leap second stands between the first sample and the trigger, which is at {trigger:g} s")
        if trigger < 0:
            tell(told, f"the trigger stands {-trigger:g} s before the first sample")
        elif trigger > times[-1] + 1e-6:
            tell(told, f"the trigger stands {trigger - times[-1]:g} s after the last sample")
    record = Record(
        path=path,
        station=own.station,
        device=own.device,
        revision=own.revision,
        form=own.form,
        times=times,
        names=names,
        units=[channel.unit for channel in own.analogs],
        phases=[channel.phase for channel in own.analogs],
        circuits=[channel.circuit for channel in own.analogs],
        state_names=bars,
        frequency=own.frequency,
        trigger=trigger,
        start=own.first.clock() if own.first else None,
        rates=own.rates if own.rates[0][0] > 0 else [],
        told=told,
        header=texts[0],
        information=texts[1],
        _configuration=own,
        _samples=samples,
    )
    if record.secondary():
        tell(told, f"recorded as secondary values, answered as primary: {listed(record.secondary())}")
    return record


def _slack(time: float) -> float:
    """By what a time that was typed may miss that of a sample."""
    return 1e-9 * max(1e-3, abs(time))


def computed(names: list[str], units: list[str], states: list[str], values: np.ndarray, step: float) -> Record:
    """The record of a run whose values are known with all digits: whole multiples of 1e-9 of the unit, shape (samples,
    analog and then status channels), a sample each `step` seconds."""
    analogs = [
        Analog(name, "", "", unit, 1e-9, 0.0, 0.0, math.nan, math.nan, 1.0, 1.0, "P", 0)
        for name, unit in zip(names, units)
    ]
    own = distinct(names, set(), [])
    return Record(
        path="",
        station="EMTP",
        device="CASE",
        revision=2013,
        form="INT64",
        times=step * np.arange(len(values)),
        names=own,
        units=units,
        phases=[""] * len(names),
        circuits=[""] * len(names),
        state_names=distinct(states, set(own), []),
        frequency=math.nan,
        trigger=0.0,
        start=None,
        rates=[],
        told=[],
        _configuration=Configuration(
            "the run", "EMTP", "CASE", 2013, analogs, [State(name, "", "", 0) for name in states], math.nan,
            [(0.0, len(values))], 0, None, None, "INT64", 1.0, "", [],
        ),
        _samples=Whole(values, len(names)),
    )  # fmt: skip


def distinct(names: list[str], taken: set[str], told: list[str]) -> list[str]:
    """The names, each once: a later one of the same text, or of one that is taken, gets .2, .3."""
    given, seen, counts, own_names = taken | set(names), set(taken), dict.fromkeys(taken, 1), []
    for name in names:
        own, count = name, counts.get(name, 0) + 1
        while own in seen or own != name and own in given:
            count = max(count, 2)
            own, count = f"{name}.{count}", count + 1
        counts[name] = count if own == name else count - 1
        seen.add(own)
        own_names.append(own)
    doubled = [name for name, own in zip(names, own_names) if name != own]
    if doubled:
        tell(
            told, f"names that stand more than once have .2, .3 behind the later ones: {listed(dict.fromkeys(doubled))}"
        )
    return own_names


def listed(names: Iterable[str]) -> str:
    """Some names in a sentence, the first twenty."""
    names = list(names)
    return (", ".join(names[:20]) or "none") + (f" and {len(names) - 20} more" if len(names) > 20 else "")


def leap_between(own: Configuration) -> int:
    """How many leap seconds stand between the instants of the first sample and of the trigger: 1, 0, or -1 where one was
    taken out."""
    if own.first is None or own.trigger is None:
        return 0
    minute = 60 * 10**9
    first, trigger = own.first, own.trigger
    begin = first.nanoseconds // minute * minute if first.leap else -(-first.nanoseconds // minute) * minute
    if trigger.nanoseconds < begin or trigger.leap and trigger.nanoseconds // minute * minute == begin:
        return 0  # before the next minute begins, or in its leap second
    if first.leap:
        return 1
    return {"1": 1, "2": -1}.get(own.clock.leap, 0)


def sample_times(own: Configuration, samples: Samples) -> np.ndarray:
    """The times of the samples in s from the first one: by the sampling rates, else by the time stamps."""
    if own.rates[0][0] == 0:
        if own.why:
            raise RecordError(f"{own.path}: {own.why}, and no sampling rate gives the times")
        return times_by_stamps(own, samples)
    times = times_by_rates(own.rates)
    if not own.why:
        off = stamps_off(times, samples, own.unit)
        if off > 1.0 / min(hertz for hertz, _ in own.rates) + own.unit:
            tell(own.told, f"the time stamps are up to {off:g} s off those of the sampling rate: the rate counts")
    if not math.isfinite(times[-1]) or len(times) > 1 and not times[-1] > times[-2]:
        raise RecordError(f"{own.path}: line {own.rates_line}: the sampling rate is out of range")
    return times


def times_by_rates(rates: list[tuple[float, int]]) -> np.ndarray:
    """Times by sampling rates, shape (samples,), s: a sample stands one period of its own rate behind the one before
    it."""
    times = np.empty(rates[-1][1])
    first, begin, ahead = 0, 0.0, 0  # ahead: the first sample stands at 0
    for hertz, last in rates:
        for at in range(first, last, BLOCK):
            end = min(at + BLOCK, last)
            with np.errstate(over="ignore"):
                times[at:end] = begin + np.arange(at - first + ahead, end - first + ahead) / hertz
        first, begin, ahead = last, times[last - 1], 1
    return times


def times_by_stamps(own: Configuration, samples: Samples) -> np.ndarray:
    """Times by time stamps, which wrap at 32 bits or ten digits: shape (samples,), s."""
    times = np.empty(samples.count)
    at, first, before, added = 0, math.nan, math.nan, 0.0
    for block in samples.stamps():
        blank = np.flatnonzero(np.isnan(block))
        if len(blank):
            where = samples.where(at + blank[0])
            raise RecordError(f"{where}: the time stamp is blank, and no sampling rate gives the time")
        if at == 0:
            first = before = block[0]
        beyond = np.flatnonzero((block < 0) | (block >= 1e10))
        if len(beyond):
            words = f"the time stamp {block[beyond[0]]:.0f} isn't one of ten digits at most"
            raise RecordError(f"{samples.where(at + beyond[0])}: {words}, and no sampling rate gives the time")
        last = np.concatenate([[before], block[:-1]])
        falls, span = block < last, np.where(last < 2.0**32, 2.0**32, 1e10)
        odd = np.flatnonzero(falls & (last - block < span / 2))
        if len(odd):
            raise RecordError(f"{samples.where(at + odd[0])}: the time stamp is below the one before it")
        if falls.any():
            tell(own.told, f"the time stamps wrap at {span[falls][0]:.0f}")
        if (block == last)[1 if at == 0 else 0 :].any():
            tell(own.told, "some samples have the time stamp of the one before")
        wraps = added + np.cumsum(np.where(falls, span, 0.0))
        with np.errstate(over="ignore", invalid="ignore"):
            times[at : at + len(block)] = (block + wraps - first) * own.unit
        at, before, added = at + len(block), block[-1], wraps[-1]
    if len(times) > 1 and times[-1] == times[0]:
        raise RecordError(f"{samples.where(0)}: all time stamps are the same, and no sampling rate gives the times")
    if not math.isfinite(times[-1]):
        raise RecordError(f"{samples.where(len(times) - 1)}: the time stamps leave the range of numbers")
    return times


def stamps_off(times: np.ndarray, samples: Samples, unit: float) -> float:
    """How far time stamps (those that aren't blank) lie from the times, in s; whole wraps of 32 bits don't count."""
    most, at, first = 0.0, 0, math.nan
    for block in samples.stamps():
        first = block[0] if at == 0 else first
        with np.errstate(over="ignore", invalid="ignore"):
            off = (block - first) * unit - times[at : at + len(block)]
            off -= np.round(off / (2.0**32 * unit)) * (2.0**32 * unit)
        most = max(most, np.abs(off[~np.isnan(off)]).max(initial=0.0))
        at += len(block)
    return most
