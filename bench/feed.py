#!/usr/bin/env python3
"""A large contest feed on standard output: bench/feed.py NOTIFICATIONS [SEED [STYLE]]

The set-up comes as whole collections; then submissions, judgements, runs, clarifications, comments and states, as a
contest of 150 teams has them. One line in eight ends a commit, one in forty is a keep-alive, and judgements are written
again and again.

Servers write the same in different styles. STYLE is one of these, `plain` if left out:

- plain: the members type, id, data and, at the end of a commit, token;
- tokens: the same, with a token on each line;
- token-first: a token on each line, before the others;
- spaces: a token on each line, and a space after each colon and comma;
- time-last: a token on each line, and after it a member `time`;
- op: a token on each line, and a member `op` before `data`;
- domjudge: token, id, type, data and time on each line, with `\\/` for a slash and `\\u` for other letters, as DOMjudge
  is believed to write."""
import argparse
import random
import re
import sys

TEAMS, PROBLEMS = 150, 12
START = "2026-11-22T10:00:00.000+01:00"
STYLES = ("plain", "tokens", "token-first", "spaces", "time-last", "op", "domjudge")
TIME = ',"time":"2026-11-22T12:00:00.000+01:00"'
# A string, or a colon or comma outside of one.
STRING_OR_MARK = re.compile(r'("(?:[^"\\]|\\.)*")|([:,])')


def escaped(text):
    """The text with `\\/` for each slash, which stands in strings alone, and `\\u` for each letter that is not ASCII."""
    return "".join(c if c < "\x80" else f"\\u{ord(c):04x}" for c in text.replace("/", "\\/"))


def spaced(text):
    """The text with a space after each colon and comma outside strings."""
    return STRING_OR_MARK.sub(lambda it: it[1] or f"{it[2]} ", text)


def spelled(style, kind, i, data, token):
    """A line: the type, and the id and the token, if any, as JSON strings."""
    marked = f',"token":{token}' if token else ""
    if style in ("plain", "tokens"):
        return f'{{"type":"{kind}","id":{i},"data":{data}{marked}}}'
    if style == "spaces":
        return spaced(f'{{"type":"{kind}","id":{i},"data":{data}{marked}}}')
    if style == "op":
        return f'{{"type":"{kind}","id":{i},"op":"update","data":{data}{marked}}}'
    if style == "token-first":
        return f'{{"token":{token},"type":"{kind}","id":{i},"data":{data}}}'
    if style == "time-last":
        return f'{{"type":"{kind}","id":{i},"data":{data}{marked}{TIME}}}'
    return f'{{"token":{token},"id":{i},"type":"{kind}","data":{escaped(data)}{TIME}}}'


def collections():
    """The set-up: a type and the elements of its collection."""
    yield "judgement-types", [
        f'{{"id":"{i}","name":"{name}","penalty":{penalty},"solved":{solved}}}'
        for i, name, penalty, solved in (
            ("AC", "correct", "false", "true"), ("WA", "wrong answer", "true", "false"),
            ("TLE", "time limit", "true", "false"), ("CE", "compiler error", "false", "false"))]
    yield "languages", [f'{{"id":"{i}","name":"{i}","extensions":["{i}"]}}' for i in ("cpp", "java", "kotlin", "python3")]
    yield "problems", [
        f'{{"id":"p{k}","ordinal":{k},"label":"{chr(65 + k)}","name":"Problem \\u00e9 {k}","time_limit":{("2.0", "10", "1.5e0")[k % 3]}}}'
        for k in range(PROBLEMS)]
    yield "groups", [f'{{"id":"{k}","name":"Region {k}","hidden":false}}' for k in range(8)]
    yield "organizations", [
        f'{{"id":"o{k}","name":"Université №{k}","country":"DEU","logo":[{{"href":"contests/wf/organizations/o{k}/logo.png",'
        f'"filename":"logo.png","mime":"image/png","width":64,"height":64}}]}}' for k in range(TEAMS)]
    yield "teams", [
        f'{{"id":"{k}","name":"Team \\"{k}\\"","label":"{k}","organization_id":"o{k}","group_ids":["{k % 8}"],"hidden":false}}'
        for k in range(TEAMS)]
    yield "persons", [f'{{"id":"x{k}","name":"Person {k}","role":"contestant","team_ids":["{k // 3}"]}}' for k in range(3 * TEAMS)]


class Feed:
    def __init__(self, notifications, seed, style):
        self.style = style
        self.most, self.made, self.token = notifications, 0, 0
        self.random = random.Random(seed)
        self.submissions = self.runs = 0
        self.lines = []

    def put(self, kind, i, data, commits=False):
        token = ""
        if commits or self.random.random() < 0.12 or self.style != "plain":
            self.token += 1
            token = f'"{self.token}"'
        quoted = "null" if i is None else f'"{i}"'
        self.line(spelled(self.style, kind, quoted, data, token))

    def line(self, text):
        self.made += 1
        self.lines.append(text)
        if len(self.lines) == 1000:
            self.flush()

    def flush(self):
        sys.stdout.buffer.write("".join(line + "\n" for line in self.lines).encode())
        self.lines.clear()

    def clock(self):
        r = self.random
        return f"{5 * self.made // self.most}:{r.randint(0, 59):02}:{r.randint(0, 59):02}.{r.randint(0, 999):03}"

    def time(self):
        r = self.random
        return f"2026-11-22T12:{r.randint(0, 59):02}:{r.randint(0, 59):02}.{r.randint(0, 999):03}+01:00"

    def state(self, **times):
        members = ",".join(f'"{name}":{times.get(name) or "null"}' for name in ("started", "frozen", "ended", "thawed", "finalized", "end_of_updates"))
        return f"{{{members}}}"

    def submission(self):
        self.submissions += 1
        n, r = self.submissions, self.random
        self.put("submissions", n, f'{{"id":"{n}","language_id":"cpp","problem_id":"p{r.randint(0, 11)}","team_id":"{r.randint(0, 149)}","time":"{self.time()}",'
                 f'"contest_time":"{self.clock()}","entry_point":null,"files":[{{"href":"contests/wf/submissions/{n}/files","filename":"files.zip","mime":"application/zip"}}],"reaction":null}}')
        self.put("judgements", n, f'{{"id":"{n}","submission_id":"{n}","judgement_type_id":null,"start_time":"{START}","start_contest_time":"{self.clock()}","end_time":null,"end_contest_time":null}}')

    def judgement(self):
        n = self.random.randint(max(1, self.submissions - 50), self.submissions)
        self.put("judgements", n, f'{{"id":"{n}","submission_id":"{n}","judgement_type_id":"{self.random.choice(("AC", "WA", "TLE"))}","start_time":"{START}",'
                 f'"start_contest_time":"{self.clock()}","end_time":"{self.time()}","end_contest_time":"{self.clock()}","max_run_time":{self.random.random():.3f}}}')

    def run(self):
        self.runs += 1
        n, r = self.runs, self.random
        self.put("runs", n, f'{{"id":"{n}","judgement_id":"{self.submissions}","ordinal":{r.randint(1, 99)},"judgement_type_id":"{r.choice(("AC", "AC", "WA"))}",'
                 f'"time":"{self.time()}","contest_time":"{self.clock()}","run_time":{r.random():.3f}}}')

    def comment(self):
        n = self.made
        data = "null" if self.random.random() < 0.3 else f'{{"id":"{n}","time":"{self.time()}","contest_time":"{self.clock()}","message":"#t{n % TEAMS} solves #p{n % PROBLEMS}","team_ids":["{n % TEAMS}"]}}'
        self.put("commentary", n, data)

    def clarification(self):
        n = self.random.randint(1, 500)
        self.put("clarifications", n, f'{{"id":"{n}","from_team_id":"{n % TEAMS}","reply_to_id":null,"problem_id":"p1","text":"What about \\n case #{n}? \\"x\\\\y\\" — naïve","time":"{self.time()}","contest_time":"{self.clock()}"}}')

    def write(self):
        self.put("contest", None, f'{{"id":"wf","name":"World Finals","formal_name":"The World Finals — Köln","start_time":"{START}","duration":"5:00:00.000","penalty_time":20}}')
        for kind, elements in collections():
            self.put(kind, None, f'[{",".join(elements)}]')
        self.put("state", None, self.state(started=f'"{START}"'), True)
        while self.made < self.most - 1:
            x = self.random.random()
            if x < 0.025:
                self.line("")
            elif x < 0.10 or self.submissions == 0:
                self.submission()
            elif x < 0.17:
                self.judgement()
            elif x < 0.175:
                self.clarification()
            elif x < 0.18:
                self.comment()
            else:
                self.run()
        self.put("state", None, self.state(started=f'"{START}"', ended='"2026-11-22T15:00:00.000+01:00"'), True)
        self.flush()


def main():
    words = argparse.ArgumentParser(
        prog="bench/feed.py", description=__doc__, formatter_class=argparse.RawDescriptionHelpFormatter
    )
    words.add_argument("notifications", metavar="NOTIFICATIONS", type=int)
    words.add_argument("seed", metavar="SEED", type=int, nargs="?", default=1)
    words.add_argument("style", metavar="STYLE", nargs="?", choices=STYLES, default="plain")
    asked = words.parse_args()
    Feed(asked.notifications, asked.seed, asked.style).write()


if __name__ == "__main__":
    main()
