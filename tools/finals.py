#!/usr/bin/env python3
"""Writes a World Finals of five hours as a server of the field is believed to: tools/finals.py STYLE [SEED]

STYLE is domjudge, cds (the Contest Data Server) or kattis. There are 130 teams, 12 problems, 1,500 submissions and a
hundred runs of each: some 156,000 notifications, 34 to 40 MB. The first two have a token on each line. Kattis has one
on each but those of collections, which are arrays. tools/live serves them to a relay."""
import base64
import datetime
import hashlib
import json
import random
import sys

from common import parser_of

CONTEST = "wf49"
START = datetime.datetime(2025, 9, 4, 11, 0, 0, tzinfo=datetime.timezone(datetime.timedelta(hours=4)))
HOUR = 3_600
UNIVERSITIES = [
    "Universität Köln",
    "Université de Montréal",
    "MIT",
    "清华大学",
    "Санкт-Петербургский университет",
    'Tehran "Sharif" Univ.',
    "Univ. São Paulo",
]
JUDGEMENTS = ["AC", "AC", "WA", "WA", "TLE", "RTE"]


def clock(seconds):
    return (START + datetime.timedelta(seconds=seconds)).isoformat(timespec="milliseconds")


def contest_time(seconds):
    minutes, rest = divmod(seconds, 60)
    return f"{int(minutes // 60)}:{int(minutes % 60):02d}:{rest:06.3f}"


def times(seconds, name=""):
    """The two times of an object."""
    prefix = f"{name}_" if name else ""
    return {f"{prefix}time": clock(seconds), f"{prefix}contest_time": contest_time(seconds)}


def file_of(path, name, mime, **more):
    return [{"href": f"contests/{CONTEST}/{path}", "filename": name, "mime": mime, **more}]


# ---- what there is before the start


def contest():
    return {
        "id": CONTEST,
        "name": "49th ICPC World Finals",
        "formal_name": "The 2025 ICPC World Finals Baku",
        "start_time": clock(0),
        "countdown_pause_time": None,
        "duration": "5:00:00.000",
        "scoreboard_freeze_duration": "1:00:00.000",
        "scoreboard_type": "pass-fail",
        "penalty_time": 20,
        "banner": file_of("banner", "banner.png", "image/png", width=1920, height=240),
        "logo": file_of("logo", "logo.png", "image/png", width=512, height=512),
    }


def judgement_types():
    names = "AC correct,WA wrong,TLE time limit,RTE run-time error,CE compile error,MLE memory limit,OLE output limit,JE error"
    for it in names.split(","):
        name, _, text = it.partition(" ")
        yield {"id": name, "name": text, "penalty": name not in ("AC", "CE", "JE"), "solved": name == "AC"}


def languages():
    for name, ending in (("cpp", "cpp"), ("java", "java"), ("python3", "py"), ("kotlin", "kt")):
        is_class = name in ("java", "kotlin")
        entry = {"entry_point_required": is_class, "entry_point_name": "Main class" if is_class else None}
        yield {"id": name, "name": name.title(), **entry, "extensions": [ending]}


def problems(draw):
    for it in range(12):
        path = f"problems/prob{it}"
        files = {
            "package": file_of(f"{path}/package", "p.zip", "application/zip"),
            "statement": file_of(f"{path}/statement", "p.pdf", "application/pdf"),
        }
        look = {"rgb": f"#{draw.randrange(1 << 24):06x}", "color": "hue", "time_limit": 2.5, "test_data_count": 100}
        yield {"id": f"prob{it}", "label": chr(65 + it), "name": f"Problème {it}", "ordinal": it, **look, **files}


def groups():
    for it, name in enumerate(["Asia", "Europe", "Latin America", "North America", "Africa and Arab", "Northern Eurasia"]):
        yield {"id": str(it), "icpc_id": str(4_000 + it), "name": name, "hidden": False}


def organizations():
    for it in range(130):
        path, name = f"organizations/inst{it}", UNIVERSITIES[it % 7]
        yield {
            "id": f"inst{it}",
            "icpc_id": str(it),
            "name": name,
            "formal_name": f"{name} {it}",
            "country": "DEU",
            "country_flag": file_of(f"{path}/flag", "flag.png", "image/png", width=600, height=400),
            "url": f"https://u{it}.example/",
            "twitter_hashtag": f"#u{it}",
            "location": {"latitude": 40.4, "longitude": 49.8},
            "logo": file_of(f"{path}/logo", "logo.png", "image/png", width=512, height=512),
        }


def teams():
    for it in range(130):
        yield {
            "id": str(it),
            "icpc_id": str(900_000 + it),
            "name": f"Team {it}",
            "label": str(it),
            "display_name": UNIVERSITIES[it % 7],
            "organization_id": f"inst{it}",
            "group_ids": [str(it % 6)],
            "location": {"x": it * 1.5, "y": it * 0.7, "rotation": 90},
            "photo": file_of(f"teams/{it}/photo", "photo.jpg", "image/jpeg", width=1920, height=1080),
            "desktop": file_of(f"teams/{it}/desktop", "", "video/mp2t"),
            "webcam": file_of(f"teams/{it}/webcam", "", "video/mp2t"),
            "hidden": False,
        }


def persons():
    for it in range(520):
        yield {
            "id": f"p{it}",
            "icpc_id": str(it),
            "name": f'Ana "{it}" Çelik',
            "title": None,
            "email": None,
            "sex": "female",
            "role": "coach" if it % 4 == 3 else "contestant",
            "team_ids": [str(it // 4)],
            "photo": file_of(f"persons/p{it}/photo", "photo.jpg", "image/jpeg", width=600, height=800),
        }


def accounts():
    for it in range(130):
        name = f"Team {it}"
        yield {"id": f"a{it}", "username": f"team{it}", "name": name, "type": "team", "ip": f"10.3.{it}.1", "team_id": str(it)}


def states():
    """The states of the contest, and when it has them."""
    state = dict.fromkeys("started frozen ended thawed finalized end_of_updates".split())
    yield -2 * HOUR, dict(state)
    for name, at in (("started", 0), ("frozen", 4), ("ended", 5), ("finalized", 6), ("thawed", 6.4), ("end_of_updates", 6.5)):
        state[name] = clock(at * HOUR)
        yield at * HOUR, dict(state)


# ---- what happens


def submission(draw, number, at):
    """What a submission leads to, each with its time, type and object."""
    name, team, problem = str(number), str(draw.randrange(130)), f"prob{draw.randrange(12)}"
    yield at, "submissions", {
        "id": name,
        "language_id": draw.choice(["cpp"] * 8 + ["java", "python3"]),
        "problem_id": problem,
        "team_id": team,
        **times(at),
        "entry_point": None,
        "files": file_of(f"submissions/{name}/files", "files.zip", "application/zip"),
        "reaction": file_of(f"submissions/{name}/reaction", "reaction.ts", "video/mp2t") if number % 2 else [],
    }
    judged = {"id": name, "submission_id": name, "judgement_type_id": None, **times(at + 0.3, "start")}
    judged.update({"end_time": None, "end_contest_time": None, "max_run_time": None, "current": True})
    yield at + 0.3, "judgements", dict(judged)
    kind, now, longest = draw.choice(JUDGEMENTS), at + 2.3, 0
    for it in range(1, 101):
        now, took = now + draw.random() * 0.5, round(draw.random() * 2, 3)
        longest = max(longest, took)
        run = {"id": str(100 * number + it - 100), "judgement_id": name, "ordinal": it}
        yield now, "runs", {**run, "judgement_type_id": "AC" if it < 100 else kind, **times(now), "run_time": took}
    yield now + 0.2, "judgements", {**judged, "judgement_type_id": kind, **times(now + 0.2, "end"), "max_run_time": longest}
    if number % 3 == 0:
        text = {"message": f"{{team:{team}}} tries {{problem:{problem}}} — {kind}", "tags": ["submission"], "source_id": "live"}
        names = {"team_ids": [team], "problem_ids": [problem], "submission_ids": [name]}
        yield now + 3, "commentary", {"id": name, **times(now + 3), **text, **names}


def clarification(draw, number):
    at = draw.random() * 5 * HOUR
    team = str(draw.randrange(130)) if number % 2 else None
    reply = str(number - 1) if number % 2 == 0 and number else None
    names = {"from_team_id": team, "to_team_id": None, "reply_to_id": reply, "problem_id": "prob1"}
    text = f'Is the "input"\nsorted? §{number}'
    return at, "clarifications", {"id": str(number), **names, "text": text, **times(at)}


def happenings(draw):
    """All that happens from the start on, in the order of its time."""
    made = [(at, "state", state) for at, state in states() if at >= 0]
    for number in range(1, 1_501):
        made += submission(draw, number, round(draw.triangular(300, 5 * HOUR, 15_000), 3))
    made += [clarification(draw, it) for it in range(150)]
    made += [(20_000, "awards", {"id": f"rank-{it}", "citation": f"Place {it}", "team_ids": [str(it)]}) for it in range(20)]
    return sorted(made, key=lambda it: it[0])


# ---- how it is written


def line_of(style, number, at, kind, data):
    """A line. A contest, a state and a collection have no id."""
    name = data["id"] if kind not in ("contest", "state") and isinstance(data, dict) else None
    if style == "domjudge":
        line = {"token": str(184_000 + number), "id": name, "type": kind, "data": data, "time": clock(at)}
    elif style == "cds":
        line = {"type": kind, **({"id": name} if name else {}), "data": data, "token": f"cds{number}"}
    else:
        token = base64.urlsafe_b64encode(hashlib.sha1(b"%d" % number).digest()[:12]).decode()
        line = {"type": kind, "id": name, "data": data, **({} if isinstance(data, list) else {"token": token})}
        return json.dumps(line) + "\n"
    return json.dumps(line, separators=(",", ":"), ensure_ascii=False) + "\n"


def finals(style, seed=7):
    """The lines of a feed."""
    draw = random.Random(seed)
    early, made = -2 * HOUR, [(-2 * HOUR, "contest", contest())]
    collections = {
        "judgement-types": judgement_types(),
        "languages": languages(),
        "problems": problems(draw),
        "groups": groups(),
        "organizations": organizations(),
        "teams": teams(),
        "persons": persons(),
        "accounts": accounts(),
    }
    for kind, objects in collections.items():
        made += [(early, kind, list(objects))] if style == "kattis" else [(early, kind, it) for it in objects]
    made += [(early, "state", next(states())[1])]
    made += happenings(draw)
    return [line_of(style, number, *it).encode() for number, it in enumerate(made, 1)]


def main():
    parser = parser_of(__doc__)
    parser.add_argument("style", metavar="STYLE", choices=["domjudge", "cds", "kattis"])
    parser.add_argument("seed", metavar="SEED", type=int, nargs="?", default=7)
    asked = parser.parse_args()
    sys.stdout.buffer.writelines(finals(asked.style, asked.seed))


if __name__ == "__main__":
    main()
