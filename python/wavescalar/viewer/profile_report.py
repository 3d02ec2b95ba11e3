"""A profile as text, as a table in long form, and as a picture."""

from collections import Counter
from typing import Any, Iterator

from wavescalar.viewer.measure import Profile, mean, most
from wavescalar.viewer.plot import COLOURS, Box, Panel, Sheet, bars

OF_REQUESTS = (
    "issues", "early", "early in ideal rounds", "wait, mean", "wait, most", "wait in ideal rounds, mean",
    "wait in ideal rounds, most",
)
BINS = ((1, 1), (2, 3), (4, 7), (8, 15), (16, 31), (32, 63), (64, 127), (128, 255), (256, 511), (512, None))


def kinds_of_requests(profile: Profile) -> list[Any]:
    """For each kind of memory operation: issues, early ones, waits in events and in ideal rounds."""
    rows = []

    def op(i: int) -> str:
        return str(profile.image.instrs[i].op)

    for kind in sorted({op(i) for i, _, _ in profile.waits}):
        here = [(early, wait) for i, early, wait in profile.waits if op(i) == kind]
        ideal = [(early, wait) for i, early, wait in profile.round_waits if op(i) == kind]
        waits, in_rounds = [wait for _, wait in here], [wait for _, wait in ideal]
        early = (sum(one for one, _ in here), sum(one for one, _ in ideal))
        rows.append((kind, len(here), *early, mean(waits), most(waits), mean(in_rounds), most(in_rounds)))
    return rows


def facts(profile: Profile) -> dict[str, Any]:
    """The numbers of the whole run: a name and a value each."""
    fires = [event for event in profile.path if event[0] == "fire"]
    loads = [row for row in kinds_of_requests(profile) if row[0] == "load"] or [("load", 0, 0, 0)]
    top = profile.fires.index(most(profile.fires)) + 1 if profile.fires else 0
    return {
        "events": len(profile.steps), "firings": profile.firings, "issues": profile.issues,
        "requests left": profile.open,
        "critical path": len(profile.path), "firings on it": len(fires),
        "issues on it": len(profile.path) - len(fires),
        "events a step of it": (profile.firings + profile.issues) / max(len(profile.path), 1),
        "ideal rounds": len(profile.fires), "firings a round, mean": mean(profile.fires),
        "firings a round, most": most(profile.fires), "round of the most": top,
        "wave numbers": len({step["w"] for step in profile.steps}),
        "waves in ideal rounds, mean": mean(profile.waves_in),
        "waves in ideal rounds, most": most(profile.waves_in),
        "waves in this trace, mean": mean(profile.waves_at),
        "waves in this trace, most": most(profile.waves_at),
        "loads issued": loads[0][1], "early loads": loads[0][2], "early loads in ideal rounds": loads[0][3],
    }


def told(profile: Profile) -> str:
    """The text."""
    f = facts(profile)
    out = [
        f"run            {profile.state()}; {f['events']} events, {f['firings']} firings,"
        f" {f['issues']} issues, {f['requests left']} requests left",
        f"critical path  {f['critical path']} events: {f['firings on it']} firings and"
        f" {f['issues on it']} issues; {f['events a step of it']:.2f} firings and issues for each of them",
        f"ideal rounds   {f['ideal rounds']}{'' if profile.ended else ' for as many events'};"
        f" {f['firings a round, mean']:.2f} firings a round on the mean,"
        f" {f['firings a round, most']} at most (round {f['round of the most']})",
        f"waves          {f['wave numbers']} wave numbers; in flight at most"
        f" {f['waves in ideal rounds, most']} in ideal rounds ({f['waves in ideal rounds, mean']:.2f} on the"
        f" mean), {f['waves in this trace, most']} in this trace ({f['waves in this trace, mean']:.2f})",
        f"early loads    {f['early loads']} of {f['loads issued']} in this trace,"
        f" {f['early loads in ideal rounds']} in ideal rounds",
        "",
        f"{'kind':10}{'firings':>9}{'share':>8}{'on the path':>13}",
    ]
    for kind, count in profile.by_kind.most_common():
        share = 100 * count / profile.firings
        out.append(f"{kind:10}{count:9}{share:7.1f}%{profile.kind_on_path[kind]:13}")
    out += ["", f"{'':39}{'wait in events':>21}{'in ideal rounds':>18}"]
    head = f"{'request':10}{'issues':>9}{'early':>8}{'on the path':>13}"
    out += [f"{head}{'mean':>12}{'most':>8}{'mean':>11}{'most':>7}"]
    for kind, count, early, _, wait, longest, ideal, ideal_longest in kinds_of_requests(profile):
        on = profile.issues_on_path[kind]
        out.append(f"{kind:10}{count:9}{early:8}{on:13}{wait:12.2f}{longest:8}{ideal:11.2f}{ideal_longest:7}")
    out += ["", f"{'instruction':24}{'firings':>9}{'on the path':>13}"]
    for i, count in sorted(profile.by_instr.items()):
        out.append(f"{name_of(profile, i):24}{count:9}{profile.on_path[i]:13}")
    return "\n".join(out) + "\n"


def name_of(profile: Profile, i: int) -> str:
    """An instruction by its name and what it does."""
    it = profile.image.instrs[i]
    return f"{it.name or i}: {it.op}" + ("" if it.arg is None else f" {it.arg}")


def table(profile: Profile) -> Iterator[tuple[Any, ...]]:
    """Rows of what a number is of, which one, what it counts, and the number."""
    yield "of", "which", "what", "value"
    for name, value in facts(profile).items():
        yield "run", "", name, f"{value:.6g}" if isinstance(value, float) else value
    for kind, count in profile.by_kind.most_common():
        yield "kind", kind, "firings", count
        yield "kind", kind, "on the path", profile.kind_on_path[kind]
    for i, count in sorted(profile.by_instr.items()):
        yield "instruction", name_of(profile, i), "firings", count
        yield "instruction", name_of(profile, i), "on the path", profile.on_path[i]
    for kind, *values in kinds_of_requests(profile):
        for name, value in zip(OF_REQUESTS, values):
            yield "request", kind, name, f"{value:.6g}" if isinstance(value, float) else value
        yield "request", kind, "issues on the path", profile.issues_on_path[kind]
    for at, (fires, waves) in enumerate(zip(profile.fires, profile.waves_in), 1):
        yield "round", at, "firings", fires
        yield "round", at, "waves in flight", waves
    for at, waves in enumerate(profile.waves_at, 1):
        yield "event", at, "waves in flight", waves


def picture(profile: Profile, title: str) -> str:
    """Six panels."""
    f = facts(profile)
    sheet = Sheet(1240, 770, title, (
        f"{profile.state()}: {f['firings']} firings and {f['issues']} issues; the critical path has"
        f" {f['critical path']} of them, {f['firings on it']} firings and {f['issues on it']} issues",
    ))
    rounds, wide, tall = len(profile.fires), 330, 215
    fires = Panel(sheet, (70, 130, wide, tall), "Firings in each ideal round", "ideal round", low=1,
                  high=rounds + 1, top=most(profile.fires))
    fires.ticks()
    many = fires.stairs(profile.fires, COLOURS[0])
    fires.mean(mean(profile.fires))
    told = [f"broken: mean of all, {mean(profile.fires):.2f}", lumped(many, "rounds")]
    fires.note("; ".join(filter(None, told)))
    waves = Panel(sheet, (480, 130, wide, tall), "Waves in flight, ideal rounds", "ideal round", low=1,
                  high=rounds + 1, top=most(profile.waves_in))
    waves.ticks()
    many = waves.stairs(profile.waves_in, COLOURS[2])
    waves.note(lumped(many, "rounds") or "wave numbers with a token or a request")
    trace = Panel(sheet, (480, 470, wide, tall), "Waves in flight, this trace", "event", low=1,
                  high=len(profile.waves_at) + 1, top=most(profile.waves_at))
    trace.ticks(most=5)
    many = trace.stairs(profile.waves_at, COLOURS[2])
    trace.note(lumped(many, "events") or "wave numbers with a token or a request")
    waits(sheet, profile, (70, 470, wide, tall))
    kinds = [(kind, count, f"{count} · {100 * count / profile.firings:.0f}%", profile.kind_on_path[kind])
             for kind, count in profile.by_kind.most_common(11)]
    bars(sheet, (890, 130, wide, tall + 14), "Firings by kind", kinds, "orange: those on the critical path")
    busy = sorted(profile.by_instr, key=lambda i: (-profile.on_path[i], -profile.by_instr[i], i))[:11]
    rows = [(name_of(profile, i)[:22], count, f"{count}", profile.on_path[i]) for i in busy for count in [profile.by_instr[i]]]
    bars(sheet, (890, 470, wide, tall + 14), "Instructions of the critical path", rows, "those with most firings on it")
    return sheet.svg()


def lumped(many: int, what: str) -> str:
    """What a line shows where many places fall together."""
    return f"line: mean of {many} {what}, pale: most" if many > 1 else ""


def waits(sheet: Sheet, profile: Profile, box: Box) -> None:
    """How many requests waited how long, in events of this trace."""
    counts: Counter[tuple[int, bool]] = Counter()
    for i, _, wait in profile.waits:
        load = profile.image.instrs[i].op == "load"
        counts[next(k for k, (_, high) in enumerate(BINS) if high is None or wait <= high), load] += 1
    last = max((k for k, _ in counts), default=0) + 1
    tallest = max((counts[k, True] + counts[k, False] for k in range(last)), default=1)
    below = "events of this trace from firing to issue, from .. on"
    panel = Panel(sheet, box, "How long requests wait", below, low=0, high=last, top=tallest,
                  note="requests; 1 is the next event")
    for k in range(last):
        wide = panel.w / last
        sheet.text(panel.at_x(k + 0.5), panel.y + panel.h + 17, BINS[k][0], 11, "#5b6770", "middle")
        others, loads = counts[k, False], counts[k, True]
        base = panel.at_y(others)
        sheet.rect(panel.at_x(k) + wide * 0.14, base, wide * 0.72, panel.at_y(0) - base, COLOURS[0])
        sheet.rect(panel.at_x(k) + wide * 0.14, panel.at_y(others + loads), wide * 0.72,
                   base - panel.at_y(others + loads), COLOURS[4])
    sheet.rect(panel.x + panel.w - 132, panel.y - 19, 10, 10, COLOURS[4])
    sheet.text(panel.x + panel.w - 118, panel.y - 10, "loads", 11)
    sheet.rect(panel.x + panel.w - 76, panel.y - 19, 10, 10, COLOURS[0])
    sheet.text(panel.x + panel.w - 62, panel.y - 10, "all others", 11)
