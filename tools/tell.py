#!/usr/bin/env python3
"""Tells a conversation in words: who sent what to whom, when, and why a step was refused.

    tools/tell.py LINES ANSWERS NAMES

LINES are lines of `calls` on one system and its states, ANSWERS what it answered, a line each. NAMES has a line for each part that has
a name (a part without one is called by its number):

    graph G NAME                        location G:L NAME       var G:V NAME
    channel Q NAME FROM TO FIELD..      action G:A NAME         clock G:C NAME
    scene TITLE                         of each `t new`, in their order
    asks G:A WORDS, asks G WORDS        what an action asks, what a graph's deadline is: told with refusals 8 and 9

What a number means stands in docs/RULES.md; names of refusals are taken from there.
"""
import pathlib
import re
import sys


def refusal_names():
    rules = pathlib.Path(__file__).resolve().parent.parent / "docs" / "RULES.md"
    return dict(re.findall(r"^\| (\d+) \| (\w+) \|", rules.read_text(), re.M))


class Names:
    def __init__(self, text):
        self.of, self.scenes = {}, []
        for line in text.splitlines():
            sort, _, rest = line.partition(" ")
            if sort == "scene":
                self.scenes.append(rest)
            elif sort:
                number, _, name = rest.partition(" ")
                self.of[sort, number] = name

    def __call__(self, sort, number, default=None):
        return self.of.get((sort, number), default if default is not None else f"{sort} {number}")

    def channel(self, number):
        name, *rest = self("channel", number, f"channel-{number}").split()
        return name, (rest[0] if rest else "?"), (rest[1] if rest[1:] else "?"), rest[2:]


def value(token):
    return {"b0": "false", "b1": "true"}.get(token, token[1:])


def message(fields, values):
    fields = list(fields) + [""] * (len(values) - len(fields))
    return "(" + ", ".join(f"{field} {value(v)}".strip() for field, v in zip(fields, values)) + ")"


class Teller:
    def __init__(self, names):
        self.names, self.refusals = names, refusal_names()
        self.now, self.scenes, self.queued = 0, 0, []

    def say(self, who, what):
        print(f"{self.now:5}  {who:7} {what}")

    def refused(self, number, asks):
        words = self.names("asks", asks, "")
        return f"refused {number}, {self.refusals.get(number, 'unknown')}" + (f" ({words})" if words else "")

    def step(self, tokens, answer):
        graph, action = tokens[2], tokens[3]
        who, name = self.names("graph", graph), self.names("action", action)
        if answer[0] == "refused":
            self.say(who, f"may not {name}: {self.refused(answer[1], action)}")
        elif len(answer) == 1:
            self.say(who, name)
        else:
            channel, sender, receiver, fields = self.names.channel(answer[2])
            said = channel + message(fields, answer[4:])
            self.say(who, {
                "send": f"sends {said} to {receiver}",
                "receive": f"takes {said} from {sender}",
                "empty": f"finds {channel} empty",
                "full": f"finds {channel} full",
            }[answer[3]])

    def wait(self, tokens, answer):
        if answer[0] == "ok":
            self.now += int(tokens[2])
        elif len(answer) == 3:
            who = self.names("graph", answer[2])
            self.say("", f"{tokens[2]} may not pass for {who}: {self.refused(answer[1], answer[2])}")
        else:
            self.say("", f"{tokens[2]} may not pass: {self.refused(answer[1], '')}")

    def run(self, tokens, answer):
        graph = tokens[2]
        if answer[0] == "refused":
            self.say(self.names("graph", graph), f"cannot be read: {self.refused(answer[1], '')}")
            return
        parts = " ".join(answer[1:]).split()
        places, rest = parts[1:parts.index("vars")], parts[parts.index("vars") + 1:]
        values, clocks = rest[:rest.index("clocks")], rest[rest.index("clocks") + 1:]
        where = " and ".join(self.names("location", f"{graph}:{place}") for place in places)
        held = [f"{self.names('var', f'{graph}:{i}')} {value(v)}" for i, v in enumerate(values)]
        read = [f"{self.names('clock', f'{graph}:{i}')} {n}" for i, n in enumerate(clocks)]
        self.say(self.names("graph", graph), f"is {where}: {', '.join(held)}; {', '.join(read)}")

    def queue(self, tokens, answer):
        if answer[0] == "ok":
            self.queued.append(value(answer[1]))
        elif answer[0] == "end":
            self.say(self.names.channel(tokens[2])[0], "holds " + (", ".join(self.queued) or "nothing"))
            self.queued = []

    def possible(self, tokens, answer):
        if answer[0] == "ok":
            graph = tokens[2]
            action, post = self.names("action", f"{graph}:{answer[1]}"), self.names("location", f"{graph}:{answer[3]}")
            self.say(self.names("graph", graph), f"may {action}, to {post}")

    def tell(self, line, answer):
        tokens, answer = line.split(" "), answer.split(" ")
        if tokens[0] != "t":
            return
        if answer[:2] == ["bad", "line"]:
            sys.exit(f"calls does not know the line: {line}")
        if tokens[1] == "new":
            self.now = 0
            title = self.names.scenes[self.scenes] if self.scenes < len(self.names.scenes) else f"scene {self.scenes + 1}"
            print(("\n" if self.scenes else "") + title)
            self.scenes += 1
            return
        how = {"step": self.step, "wait": self.wait, "run": self.run, "queue": self.queue, "pg": self.possible}.get(tokens[1])
        if how:
            how(tokens, answer)


def main():
    if len(sys.argv) != 4:
        sys.exit(__doc__)
    lines, answers, names = (pathlib.Path(name).read_text() for name in sys.argv[1:])
    lines, answers = lines.splitlines(), answers.splitlines()
    if len(lines) != len(answers):
        sys.exit(f"{len(lines)} lines, and {len(answers)} answers")
    teller = Teller(Names(names))
    for line, answer in zip(lines, answers):
        teller.tell(line, answer)


main()
