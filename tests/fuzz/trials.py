"""What is tried of a case: runs of the program, each with the answer that is wanted.

The first is the case itself. Beside it stand cases that have several faults, damaged copies of its input, and small extracts
with a line of each sort, where each damage in one place has its turn, and wrong columns have theirs in each command. Where the
case is accepted there are further runs, whose answers have to agree with its own.
"""
from __future__ import annotations

import re
from itertools import chain, cycle, product
from random import Random
from typing import Callable, Dict, Iterable, Iterator, List, NamedTuple, Tuple

from generator.cases import OFTEN, Case, small_jobs, small_views, some_bytes, some_case
from generator.damage import damaged, damaged_at, places_of_damage, wrong_columns
from generator.derived import changed_once, said_otherwise
from generator.feeds import OfSmall, small_feeds
from generator.spelling import PLAIN, spelled, with_one_moved
from generator.timetables import Timetable, each_sort
from reference.answers import OF_FEEDS, SOME, Answer, Inputs, Job, answer, date_of, names_of
from reference.dates import yymmdd
from reference.extracts import common_of, read_extract
from reference.faults import REFUSED


class Trial(NamedTuple):
    """A name of what is tried, the job, the bytes of each input, and the answer that is wanted."""

    name: str
    job: Job
    inputs: Inputs
    want: Answer


SAME = Answer(b"same\n", b"", 0)
OTHER_FORMS = {"1": "23", "2": "13", "3": "12", None: "13"}
BOTH = ("left.cif", "right.cif")

# How many damaged inputs, how many cases with faults, and how many small damaged extracts and feeds are tried beside each case:
# each damage of a small extract has its turn within 300 cases.
DAMAGED, FAULTY, SMALL, SMALL_FEEDS = 3, 2, 6, 5


class Inconsistent(Exception):
    """Two answers of the reference don't agree."""


def counts_of(output: bytes) -> Answer:
    """What check has to say of a canonical extract."""
    kinds = [line[:2] for line in output.splitlines()]
    numbers = (kinds.count(kind) for kind in (b"TI", b"AA", b"BS"))
    return Answer(
        "accepted: {} tiplocs, {} associations, {} schedules\n".format(*numbers).encode(), b"", 0
    )


def of_canonical(job: Job, inputs: Inputs, output: bytes, options: bool) -> Iterator[Trial]:
    """Of a canonical extract: that it is its own, that it says what its input says, and the other forms."""
    plain_job = job._replace(files=())
    yield Trial("the output again", plain_job, [output], Answer(output, b"", 0))
    if job.first or job.last:
        undated = plain_job._replace(first=None, last=None)
        yield Trial("the output again, without dates", undated, [output], Answer(output, b"", 0))
    yield Trial(
        "the input's counts",
        plain_job._replace(command="check", format=None),
        inputs,
        counts_of(output),
    )
    compared = Job("compare", BOTH, first=job.first, last=job.last)
    yield Trial("the input and its output", compared, [*inputs, output], SAME)
    for form in OTHER_FORMS[job.form] if options else "":
        other = plain_job._replace(form=form)
        others = answer(other, inputs)
        yield Trial(f"the output in form {form}", other, [output], others)
        yield Trial(
            f"the output back from form {form}", plain_job, [others.stdout], Answer(output, b"", 0)
        )


def of_second_extracts(
    rng: Random, job: Job, inputs: Inputs, output: bytes, timetable: Timetable
) -> Iterator[Trial]:
    """Of two other extracts: one says the same, and one is changed in one place."""
    compared = Job("compare", BOTH, first=job.first, last=job.last)
    same, changed = some_bytes(rng, said_otherwise(rng, timetable)), some_bytes(
        rng, changed_once(rng, timetable)
    )
    yield Trial("what says the same", job._replace(files=()), [same], Answer(output, b"", 0))
    yield Trial("the input and what says the same", compared, [*inputs, same], SAME)
    normalised, comparison = answer(job, [changed]), answer(compared, [*inputs, changed])
    if (normalised.stdout == output) != (comparison.stdout == SAME.stdout):
        raise Inconsistent(
            "what is changed in one place has one canonical extract with the input, or compares as the same"
        )
    yield Trial("what is changed in one place", job._replace(files=()), [changed], normalised)
    yield Trial(
        "the input and what is changed in one place", compared, [*inputs, changed], comparison
    )


def with_dates(job: Job, inputs: Inputs) -> Job:
    """The job of two files without --common, with the dates that it stands for."""
    if not job.common:
        return job
    dates = common_of([read_extract(data) for data in inputs])
    first, last = (yymmdd(date_of(word) or day) for word, day in zip((job.first, job.last), dates))
    return job._replace(first=first, last=last, common=False)


def of_comparison(job: Job, inputs: Inputs, want: Answer) -> Iterator[Trial]:
    """Two extracts differ alike in the other order, and after one is normalised."""
    yield Trial("the other order", job, inputs[::-1], want)
    yield from of_equal_jobs(job, inputs, want)


def of_equal_jobs(job: Job, inputs: Inputs, want: Answer) -> Iterator[Trial]:
    """Two extracts differ alike with the dates of their common window, and after one is normalised."""
    dated = with_dates(job, inputs)
    if job.common:
        yield Trial("with the dates of the common window", dated, inputs, want)
    output = answer(Job("normalise", first=dated.first, last=dated.last), inputs[:1]).stdout
    yield Trial("the left one normalised", job, [output, inputs[1]], want)


def records_of(lines: List[bytes]) -> Tuple[List[bytes], ...]:
    """The lines of HD, of TI, of AA and of schedules."""
    kinds = {b"HD": 0, b"TI": 1, b"AA": 2}
    found: Tuple[List[bytes], ...] = [], [], [], []
    for line in lines:
        if line[:2] != b"ZZ":
            found[kinds.get(line[:2], 3)].append(line)
    return found


def with_letter(lines: List[bytes], letter: bytes) -> List[bytes]:
    return [line[:79] + letter if line[:2] in (b"AA", b"BS") else line for line in lines]


def turned_into(left: bytes, differences: bytes, header: bytes) -> bytes:
    """An extract in which nothing runs of what only the left one says, and what only the right one says overlays the rest."""
    ours, theirs = (
        [line[2:] for line in differences.splitlines() if line[:1] == mark] for mark in (b"<", b">")
    )
    _, tiplocs, associations, schedules = records_of(left.splitlines())
    _, no_tiplocs, no_associations, no_schedules = records_of(with_letter(ours, b"C"))
    _, new_tiplocs, new_associations, new_schedules = records_of(with_letter(theirs, b"O"))
    places = [line for line in tiplocs if line not in no_tiplocs] + new_tiplocs

    def extract(*records: List[bytes]) -> bytes:
        return b"".join(
            line + b"\n" for line in [header, *places, *chain(*records), b"ZZ".ljust(80)]
        )

    cancelled = answer(
        Job("normalise"), [extract(associations, no_associations, schedules, no_schedules)]
    ).stdout
    _, _, associations, schedules = records_of(cancelled.splitlines())
    return extract(associations, new_associations, schedules, new_schedules)


def of_differences(job: Job, inputs: Inputs, want: Answer) -> Iterator[Trial]:
    """Nothing differs exactly if the two compare as the same; and the differences turn the left one into the right one."""
    compared = job._replace(command="compare", format=None)
    comparison = answer(compared, inputs)
    if (comparison == SAME) != (want == Answer(b"", b"", 0)):
        raise Inconsistent("two extracts compare as the same and differ, or don't")
    yield Trial("how they compare", compared, inputs, comparison)
    yield Trial("the other order", job, inputs[::-1], answer(job, inputs[::-1]))
    yield from of_equal_jobs(job, inputs, want)
    dated = with_dates(job, inputs)
    normalised = Job("normalise", first=dated.first, last=dated.last)
    left, right = (answer(normalised, [data]).stdout for data in inputs)
    turned = turned_into(left, want.stdout, right.splitlines()[0])
    if answer(Job("normalise"), [turned]).stdout != right:
        raise Inconsistent("the differences don't turn the left extract into the right one")
    yield Trial(
        "the left one turned into the right one", Job("normalise"), [turned], Answer(right, b"", 0)
    )


def of_difference_table(job: Job, inputs: Inputs, want: Answer) -> Iterator[Trial]:
    """There is a row exactly if there is a difference; and the table is that of the other order with its sides changed."""
    listed = job._replace(format=None)
    text = answer(listed, inputs)
    if text.status != want.status:
        raise Inconsistent(
            "the table of differences has rows and their text has no line, or the other way round"
        )
    yield Trial("the same as text", listed, inputs, text)
    other = answer(job, inputs[::-1])
    if sides_changed(want.stdout) != sorted(other.stdout.splitlines()):
        raise Inconsistent(
            "the differences in the other order aren't these with their sides changed"
        )
    yield Trial("the other order", job, inputs[::-1], other)
    yield from of_equal_jobs(job, inputs, want)


def sides_changed(table: bytes) -> List[bytes]:
    """The rows of a table of differences with left in the place of right, sorted."""
    heading, *rows = (line.split(b"\t") for line in table.splitlines())
    other = {b"<": b">", b">": b"<", b"<>": b"<>"}
    rows = [[other[change], *cells, right, left] for change, *cells, left, right in rows]
    return sorted(b"\t".join(row) for row in [heading, *rows])


def of_text(job: Job, inputs: Inputs) -> Iterator[Trial]:
    """What has a table has a text."""
    text = job._replace(format=None)
    yield Trial("the same as text", text, inputs, answer(text, inputs))


def of_json(job: Job, inputs: Inputs) -> Iterator[Trial]:
    """What has rows in JSON has a table."""
    table = job._replace(format="tsv")
    yield Trial("the same as a table", table, inputs, answer(table, inputs))


def of_diff(job: Job, inputs: Inputs, want: Answer) -> Iterator[Trial]:
    return (of_difference_table if job.format == "tsv" else of_differences)(job, inputs, want)


def of_explanation(job: Job, inputs: Inputs, want: Answer) -> Iterator[Trial]:
    """What wins on a date is what day says, where there is no clash, and the only record of a canonical extract."""
    if job.format == "tsv":
        yield from of_text(job, inputs)
        return
    day = Job("day", day=job.day)
    listed = answer(day, inputs)
    yield Trial("the day of it", day, inputs, listed)
    if listed.status == 0:
        assert job.uid is not None
        of_uid = [line for line in listed.stdout.split(b"\n") if job.uid.encode() in uids_of(line)]
        won = [
            line
            for line in want.stdout.split(b"\n")
            if line.startswith(b"wins  ") and line[10:11] != b"C"
        ]
        if of_uid != list(dict.fromkeys(line[7:10] + line[34:] for line in won)):
            raise Inconsistent("the records that win aren't what the day has")
        canonical = [answer(Job("normalise"), inputs).stdout]
        yield Trial(
            "the same of the canonical extract",
            job._replace(files=()),
            canonical,
            answer(job, canonical),
        )


def uids_of(line: bytes) -> Tuple[bytes, ...]:
    """The UID of a line of day, or both if it is of an association."""
    return (line[3:9], line[10:16]) if line.startswith(b"AA") else (line[3:9],)


def of_clashes(job: Job, inputs: Inputs, want: Answer) -> Iterator[Trial]:
    """The first clash is the one for which check refuses the extract; and each is explained."""
    if job.format == "tsv":
        yield from of_text(job, inputs)
        return
    checked = answer(job._replace(command="check", format=None), inputs)
    lines = want.stdout.splitlines()
    if (
        lines
        and checked != Answer(b"", b"cif: Ambiguous: " + lines[0] + b"\n", REFUSED)
        or not lines
        and checked.status
    ):
        raise Inconsistent("the first clash isn't the one that check names")
    yield Trial("the check of it", job._replace(command="check", format=None), inputs, checked)
    for line in lines[:2]:
        uid, day = line.split(b"[", 1)[1][:6].decode(), line[-6:].decode()
        explain = Job("explain", job.files, day=day, uid=uid)
        yield Trial("a clash explained", explain, inputs, answer(explain, inputs))


def of_view(job: Job, inputs: Inputs, want: Answer) -> Iterator[Trial]:
    """A view, as a table of a whole extract, is that of the canonical extract."""
    output = answer(Job("normalise", first=job.first, last=job.last), inputs).stdout
    yield Trial("the same of the canonical extract", job._replace(files=()), [output], want)


def of_table(job: Job, inputs: Inputs, want: Answer) -> Iterator[Trial]:
    """The tables have as many records as check says."""
    counted = answer(
        Job("check", first=job.first, last=job.last, form=job.form), inputs
    ).stdout.decode()
    numbers = dict(
        zip(("tiplocs", "associations", "schedules"), map(int, re.findall("[0-9]+", counted)))
    )
    heading, *rows = want.stdout.splitlines()
    if len(rows) != numbers.get(job.table or "", len(rows)) or any(
        row.count(b"\t") != heading.count(b"\t") for row in rows
    ):
        raise Inconsistent(
            "a table has another number of rows than check says, or of fields than its heading"
        )
    yield from of_view(job, inputs, want)


def of_calendar(job: Job, inputs: Inputs, want: Answer) -> Iterator[Trial]:
    """Where there is no clash, the canonical extract has a P exactly where something runs."""
    if job.format == "tsv":
        yield from of_text(job, inputs)
        return
    output = answer(Job("normalise", first=job.first, last=job.last), inputs)
    if output.status == 0:
        runs = want._replace(stdout=want.stdout.translate(bytes.maketrans(b"NOC", b"PP.")))
        yield Trial(
            "the same of the canonical extract", job._replace(files=()), [output.stdout], runs
        )


def of_prepared(job: Job, inputs: Inputs, want: Answer) -> Iterator[Trial]:
    """What is prepared is an extract of the profile, of which prepare writes the same again, and has no clash if they are dropped."""
    if job.winners:
        return
    again = job._replace(files=(), holidays=None)
    yield Trial("the output again", again, [want.stdout], want._replace(stderr=b""))
    if job.drop_clashes:
        yield Trial("the clashes of it", Job("clashes"), [want.stdout], Answer(b"", b"", 0))


def of_update(job: Job, inputs: Inputs, want: Answer) -> Iterator[Trial]:
    """Several updates do what the one after the other do."""
    if len(inputs) == 2:
        return
    full, *updates = inputs
    for number, update in enumerate(updates):
        one = job._replace(files=("full.cif", "update.cif"))
        done = answer(one, [full, update])
        yield Trial(f"update {number + 1} by itself", one, [full, update], done)
        full = done.stdout
    if full != want.stdout:
        raise Inconsistent("several updates don't do what the one after the other do")


def of_damage(rng: Random, case: Case, options: bool) -> Iterator[Trial]:
    """A case of prepare or update after each of some damages to an input; of any other, what check says of its first one."""
    for _ in range(DAMAGED):
        job, whole = Job("check", all=options and rng.random() < 0.5), case.inputs[:1]
        if case.job.command in OF_FEEDS:
            job, whole = case.job, case.inputs
        inputs = [data for data in whole if data is not None]
        at = rng.randrange(len(inputs))
        inputs[at] = damaged(rng, inputs[at])
        yield Trial("damaged", job, inputs, answer(job, inputs))


def of_small_extracts(rng: Random, turn: int, options: bool) -> Iterator[Trial]:
    """What commands say of small extracts with one damage, and of others; and normalise of texts that stand further right."""
    timetable = each_sort(rng)
    data = spelled(rng, timetable.lines(), PLAIN)
    jobs = small_jobs(timetable) if options else [OfSmall(Job("check"), 0)]
    yield from of_damage_in_turn(jobs, [data, data], turns_of(turn, SMALL))
    for job, inputs in small_views(rng, timetable) if options else ():
        yield Trial("small", job, inputs, answer(job, inputs))
    data, job = spelled(rng, [with_one_moved(rng, line) for line in timetable.lines()], PLAIN), Job(
        "normalise"
    )
    yield Trial("small, with moved texts", job, [data], answer(job, [data]))


def of_small_feeds(rng: Random, turn: int, options: bool) -> Iterator[Trial]:
    """The same of prepare, or of an input of update."""
    sorts = small_feeds(rng)
    turn, sort = divmod(turn, len(sorts))
    jobs, inputs = sorts[sort]
    yield from of_damage_in_turn(jobs if options else jobs[:1], inputs, turns_of(turn, SMALL_FEEDS))


def of_damage_in_turn(jobs: List[OfSmall], inputs: List[bytes], turns: range) -> Iterator[Trial]:
    """What jobs say of an input with one damage: each job of the columns that each kind can have wrong, and then of all that
    can be done in one place some job.
    """
    lines = inputs[jobs[0].damaged].splitlines(keepends=True)
    found = list(product(jobs, wrong_columns(lines))) + list(
        zip(cycle(jobs), places_of_damage(lines))
    )
    for turn in turns:
        (job, at), damage = found[turn % len(found)]
        of_job = inputs[: len(names_of(job))]
        of_job[at] = damaged_at(lines, *damage)
        yield Trial("small and damaged", job, of_job, answer(job, of_job))


def turns_of(turn: int, count: int) -> range:
    return range(turn * count, (turn + 1) * count)


def of_faults(rng: Random, commands: List[str], options: bool) -> Iterator[Trial]:
    """Other cases, of which many have several faults."""
    for _ in range(FAULTY):
        job, inputs, _ = some_case(rng, commands, options, OFTEN)
        yield Trial("with faults", job, inputs, answer(job, inputs))


def without_more(want: Answer) -> Answer:
    """The answer without what --verbose adds."""
    lines = want.stderr.splitlines(keepends=True)
    return want._replace(stderr=b"".join(line for line in lines if not line.startswith(b"  ")))


def further_trials(rng: Random, case: Case, want: Answer, options: bool) -> Iterator[Trial]:
    """Of a case that is accepted."""
    job, inputs = case.job, case.inputs
    if job.command == "normalise":
        yield from of_canonical(job, inputs, want.stdout, options)
        if case.timetable:
            yield from of_second_extracts(rng, job, inputs, want.stdout, case.timetable)
    elif job.format == "json":
        yield from of_json(job, inputs)
    else:
        yield from FURTHER[job.command](job, inputs, want)


FURTHER: Dict[str, Callable[[Job, Inputs, Answer], Iterable[Trial]]] = {
    "check": lambda *_: (),
    "compare": of_comparison,
    "diff": of_diff,
    "day": of_view,
    "train": of_view,
    "explain": of_explanation,
    "clashes": of_clashes,
    "table": of_table,
    "calendar": of_calendar,
    "departures": of_view,
    "arrivals": of_view,
    "prepare": of_prepared,
    "update": of_update,
}


def trials_of(
    rng: Random, turn: int, case: Case, commands: List[str], options: bool
) -> Iterator[Trial]:
    """All trials of a case that are of these commands; turn counts the cases."""
    want = answer(case.job, case.inputs)
    further = [[Trial("", case.job, case.inputs, want)], of_faults(rng, commands, options)]
    further += [of_small_extracts(rng, turn, options), of_small_feeds(rng, turn, options)]
    if case.timetable or case.job.command in OF_FEEDS and None not in case.inputs:
        further.append(of_damage(rng, case, options))
    if want.status in (0, SOME):
        quiet = case._replace(job=case.job._replace(verbose=False))
        further.append(further_trials(rng, quiet, without_more(want), options))
    yield from (trial for trial in chain(*further) if trial.job.command in commands)
