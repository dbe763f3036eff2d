"""A plain ordered map, run by one thread: what each operation of a trace is to answer."""

import random

LETTERS = "abcdefgh"


class PlainMap:
    def __init__(self):
        self.pairs = {}

    def write(self, verb, key, value, old=None):
        """The reply to a write, after which the map is changed. `old` is what `swapif` wants to find."""
        was = self.pairs.get(key)
        puts = {
            "insert": was is None,
            "upsert": True,
            "update": was is not None,
            "swapif": was is not None and was == old,
        }[verb]
        if puts:
            self.pairs[key] = value
            return "was " + was if was is not None else ("inserted" if verb == "insert" else "new")
        return "none" if was is None else "held " + was

    def delete(self, key):
        was = self.pairs.pop(key, None)
        return "none" if was is None else "was " + was

    def get(self, key):
        return "is " + self.pairs[key] if key in self.pairs else "none"

    def between(self, first, end):
        """The pairs from one key on and below the other, or to the end where that is None."""
        keys = sorted(key for key in self.pairs if first <= key and (end is None or key < end))
        return [f"{key or '%'} {self.pairs[key]}" for key in keys]

    def scan(self, verb, first, end, most):
        pairs = self.between(first, end)
        found = pairs[::-1][:most] if verb == "rscan" else pairs[:most]
        return "\n".join([f"scan {len(found)}", *found])

    def dump(self):
        pairs = self.between("", None)
        return "".join(line + "\n" for line in [f"contents {len(pairs)}", *pairs])


class TraceMaker:
    """Draws the operations of a trace from a seed, and has the plain map answer each."""

    def __init__(self, seed, length):
        self.random, self.map, self.length = random.Random(seed), PlainMap(), length
        self.lines, self.replies = [], []

    def key(self):
        return "".join(self.random.choices(LETTERS, k=self.random.randint(0, self.length)))

    def value(self):
        return str(self.random.randrange(9))

    def end(self):
        return None if self.random.random() < 0.3 else self.key()

    def add(self, verbs):
        """One operation more."""
        verb, key = self.random.choice(verbs), self.key()
        spelled = key or "%"
        if verb in ("scan", "rscan"):
            end, most = self.end(), self.random.randrange(12)
            line = f"{verb} {spelled} {'*' if end is None else end or '%'} {most}"
            reply = self.map.scan(verb, key, end, most)
        elif verb in ("get", "delete"):
            line, reply = f"{verb} {spelled}", getattr(self.map, verb)(key)
        else:
            old, value = self.value(), self.value()
            line = f"{verb} {spelled} {old + ' ' if verb == 'swapif' else ''}{value}"
            reply = self.map.write(verb, key, value, old)
        self.lines.append(line)
        self.replies.append(reply)

    def batch(self, count, verbs):
        for _ in range(count):
            self.add(verbs)
        self.lines.append("go")

    def trace(self):
        return "".join(line + "\n" for line in self.lines)

    def texts(self):
        return "".join(reply + "\n" for reply in self.replies)
