#!/usr/bin/env python3
"""Brings the repository's own definitions and lemmas to the spelling of Rattle's names.

usage: python3 tools/respell.py        at the top of the repository, once, after the toolchain's own respelling

A name with dashes is a name of this repository: a fact or a record is then in upper camel case, anything else in snake
case. A dash stays only between two names that a lemma joins. Functions of src/, strings, inputs and outputs are left
alone: no name of the list stands in them.
"""

import os
import re

# Names that are spelled by their parts.
BY_PARTS = """
Waits-not left-line asked-outcomes ask-cases open-cases line-cases state-cases its-cases if-cases camera-cases
kind-cases member-cases request-cases class-known join-cases go-cases clock-cases nothing-changes of-camera of-request
of-join few-acts more-forward clock-forward waits-already again-nothing its-place told-newcomer no-clock set-fine
drop-fine first-due rise-more rise-last rise-next rise-without above-recalled rise-recalled in-line on-time numbers-rise
recalls-it pre-empts none-some all-nth not-ahead ahead-or-level Law-one first-at nth-inserted waits-at enters-at
count-front count-rest place-counts count-more or-other ahead-turned ahead-on ahead-back ahead-of-it ahead-later
ahead-next ahead-all ahead-of-last not-later none-there in-inserted still-set first-dropped by-time expired-by At-second
of-clock until-more at-found without-found without-missing change-found change-missing first-stop first-pass first-end
change-in-line act-word act-number act-camera act-value grant-act notify-act reply-with accepted-with only-says
refused-for by-claim by-phase by-transmission state-of-camera recall-number end-number reject-number act-on expire-alarm
stop-at reach-second go-to clock-to acts-of resend-or-reject no-effect asks-again level-with Stands-at Told-its-place
Places-told Told-place by-recall alarms-shown No-time no-alarm no-act none-due By-time no-further at-due others-stay
Clock-refused At-more At-clock Keeps-time In-line On-time Numbers-rise Lawful-event nothing-changes-again at-most-three
claim-of transmission-of alarm-of in-standing later-standing last-standing ahead-of-some pre-empted-by recall-it
pre-empt-for pre-empt refusal-number ended-row granted-row close-it read-it by-ground queued-acts wait-for ask-line
ask-grant ask-first until-due resend-act in-range with-clock with-members with-transmissions with-claims with-alarms
with-tables empty-tables may-not-join join-as drop-member drop-claim leave-idle leave-waiting leave-open cancel-claim
in-state if-member of-member by-class by-kind-of request-by request-of set-alarm drop-alarm next-grant grant-to
grant-acts promote-first close-grant end-acts recalled-for recall-of revoke-act place-of-first first-that without-first
change-first all-behind laws-of by-turns higher-turned by-higher by-lower test-not-behind isnt-behind is-behind
turned-not-behind ahead-is turned-from turned-back first-not-behind second-not-behind both-not-behind ahead-behind
behind-ahead is-ahead is-level in-turn higher-first lower-first kind-number kind-of by-priority by-kind by-due
standing-of laws-of-named
""".split()

# Lemmas whose name joins two names, the outer call first.
JOINED = {
    "all_inserted": "All-inserted",
    "all-without-first": "All-without_first",
    "insert-ordered": "Ordered-insert",
    "length_without": "length-without",
    "length-without-first": "length-without_first",
    "ordered-removed": "Ordered-remove",
    "ordered-without": "Ordered-without",
    "ordered-without-first": "Ordered-without_first",
    "turned-in-turn": "in_turn-turned",
}

# Words of plain English that are names too: they stay in comments.
IN_PROSE = {"pre-empt", "pre-empts", "in-line", "on-time", "by-time", "go-to"}


def spelled(name):
    if name[0].isupper():
        return "".join(part[:1].upper() + part[1:] for part in name.split("-"))
    return name.replace("-", "_")


TABLE = {name: spelled(name) for name in BY_PARTS} | JOINED
NAME = re.compile(r"(?<![\w'-])(?:" + "|".join(re.escape(n) for n in sorted(TABLE, key=len, reverse=True)) + r")(?![\w'-])")
COMMENT = re.compile(r"^\s*(?:--|//)")


def respell(line):
    comment = COMMENT.match(line) is not None

    def word(found):
        name = found.group(0)
        if comment and name in IN_PROSE:
            return name
        return TABLE[name]

    return NAME.sub(word, line)


def main():
    for folder, folders, files in os.walk("crates"):
        folders[:] = sorted(f for f in folders if f != "out")
        for file in sorted(files):
            if not file.endswith((".rt", ".antt")):
                continue
            path = os.path.join(folder, file)
            with open(path, encoding="utf-8") as f:
                old = f.read()
            new = "".join(respell(line) for line in old.splitlines(keepends=True))
            if new != old:
                with open(path, "w", encoding="utf-8") as f:
                    f.write(new)


if __name__ == "__main__":
    main()
