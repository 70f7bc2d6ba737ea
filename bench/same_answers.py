#!/usr/bin/env python3
"""same_answers.py PROGRAM OTHER [COUNT [SEED]]: gives two built programs the same texts of calls, and compares what they write.

Text number n, of `kq`, `sleep`, `itimer` or `event` in turn, of those that both programs have, is made from SEED + n (defaults:
10000 texts from seed 1): few timers, times that meet each other and the ends of their range, and now and then a bad line. The first
text that is not answered alike, by the same bytes and the same exit status, is printed."""
import random, subprocess, sys
from concurrent.futures import ThreadPoolExecutor

PROGRAM, OTHER = sys.argv[1:3]
COUNT = int(sys.argv[3]) if len(sys.argv) > 3 else 10_000
SEED = int(sys.argv[4]) if len(sys.argv) > 4 else 1
COUNTED = {"kq": "knotes", "sleep": "sleepers", "itimer": "processes", "event": "timers"}
WORDS = []
BAD = ("", "# a comment", "tick", "tick 0 0", "stop", "begin 1", "add 1 1 h", "get 1024", "until -1", "sleep 0 0 2147483648", "events 1025")


class Text:
    """A text of one command, line by line. Its clock rises."""

    def __init__(self, seed):
        self.random = random.Random(seed)
        self.word = WORDS[seed % len(WORDS)]
        self.count = self.random.randint(1, 6)
        self.clock = 0

    def number(self):
        return self.random.randrange(self.count)

    def units(self):
        """A time in units of 2^-32 seconds, as a word."""
        seconds = self.random.choice((0, 0.25, 0.5, 1, 1, 1.5, 2, 3))
        near = self.random.choice((0, 0, 0, 0, 1, -1))
        return f"u{max(0, int(seconds * 2**32) + near)}"

    def span(self):
        return self.random.choice((self.units(), self.units(), self.units(), f"u{2**63 - 1 - self.random.randrange(3)}"))

    def moment(self):
        self.clock += self.random.choice((0, 1, 2**30, 2**31, 2**32, 2**33, 2**34))
        return f"u{min(self.clock, 2**63 - 1)}"

    def kq(self):
        one = self.random.randint(0, self.count + 1)
        value = self.random.choice((0, 1, 1, 2, 3, 250, 500, 1000, 1500, 2**31 - 1, 2**31, 2**64 - 1))
        add = f"add {one} {value} {self.random.choice(('s', 'ms', 'us', 'ns'))}" + self.random.choice(("", "", " oneshot"))
        return self.random.choice((add, add, f"delete {one}", f"tick {self.moment()}", f"tick {self.moment()}", f"events {self.random.randint(0, 5)}"))

    def sleep(self):
        channel = self.random.randint(0, 2)
        ticks = self.random.choice((0, 1, 500, 1000, 1000, 2000, 2**31 - 1))
        begin = f"sleep {self.number()} {channel} {ticks}"
        return self.random.choice((begin, begin, begin, f"wakeup {channel}", f"wakeup1 {channel}", f"awake {self.number()}", f"tick {self.moment()}", f"tick {self.moment()}"))

    def itimer(self):
        p = self.number()
        put = f"set {p} {self.span()} {self.span()}"
        return self.random.choice((put, put, f"get {p}", f"alarm {p}", f"tick {self.moment()}", f"tick {self.moment()}"))

    def event(self):
        due = self.random.choice(("+", "=")) + self.span()
        arm = f"arm {self.number()} {due} pr {self.span()}"
        return self.random.choice((arm, arm, arm, f"stop {self.number()}", f"until {self.moment()}"))

    def text(self):
        lines = [f"{self.word} 1", f"{COUNTED[self.word]} {self.count}"]
        for _ in range(self.random.randint(0, 60)):
            lines.append(getattr(self, self.word)())
            if self.random.random() < 0.003:
                lines.append(self.random.choice(BAD))
        end = "" if self.random.random() < 0.01 else "\n"
        return ("\n".join(lines) + end).encode()


def answer(program, text, word):
    done = subprocess.run([program, word], input=text, capture_output=True, timeout=60)
    return done.returncode, done.stdout


def has(program, word):
    """Whether the program has this command: it answers a text that asks nothing."""
    return answer(program, f"{word} 1\n{COUNTED[word]} 1\n".encode(), word) == (0, b"")


def differs(number):
    one = Text(SEED + number)
    text = one.text()
    ours, other = answer(PROGRAM, text, one.word), answer(OTHER, text, one.word)
    return None if ours == other else (number, one.word, text, ours, other)


def main():
    WORDS.extend(word for word in COUNTED if has(PROGRAM, word) and has(OTHER, word))
    with ThreadPoolExecutor(4) as pool:
        for found in pool.map(differs, range(COUNT)):
            if found:
                number, word, text, ours, other = found
                print(f"text {number} of {word}, seed {SEED + number}:\n{text.decode()}\n{ours}\n{other}")
                return 1
    print(f"{COUNT} texts of {', '.join(WORDS)}: all are answered alike")
    return 0


sys.exit(main())
