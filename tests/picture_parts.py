"""What tests/picture leans on: the count of what is right, a browser, and what a session of contrib/session says by itself."""
import functools
import json
import os
import re
import subprocess
import time

TOP = os.path.dirname(os.path.dirname(os.path.realpath(__file__)))
PAGE = os.path.join(TOP, "contrib", "pipe.html")
PICTURE = os.path.join(TOP, "docs", "late_fault.svg")
COUNTS = {"right": 0, "wrong": 0, "skipped": 0}

def look(is_right, what):
    COUNTS["right" if is_right else "wrong"] += 1
    if not is_right:
        print(f"wrong: {what}")


def same(found, wanted, what):
    look(found == wanted, f"{what}: {found!r}, and not {wanted!r}")


def skip(what):
    COUNTS["skipped"] += 1
    print(f"skipped: {what}")


class Browser:
    """A page in headless Chromium, by its protocol over two pipes."""

    def __init__(self, program):
        to_read, self.to = os.pipe()
        self.back, from_write = os.pipe()

        def ends():
            os.dup2(to_read, 3)
            os.dup2(from_write, 4)
        words = [program, "--headless", "--no-sandbox", "--disable-gpu", "--remote-debugging-pipe", "about:blank"]
        # The ends must not stand at 3 and 4 themselves before they are doubled there.
        to_read, from_write = os.dup(to_read), os.dup(from_write)
        os.set_inheritable(to_read, True)
        os.set_inheritable(from_write, True)
        self.process = subprocess.Popen(words, preexec_fn=ends, close_fds=False, stdout=subprocess.DEVNULL,
                                        stderr=subprocess.DEVNULL)
        self.number, self.rest, self.session = 0, b"", None
        self.said = []  # what the browser told by itself
        target = self.ask("Target.createTarget", url="about:blank")["targetId"]
        self.session = self.ask("Target.attachToTarget", targetId=target, flatten=True)["sessionId"]
        for domain in ["Page", "Network", "Runtime"]:
            self.ask(f"{domain}.enable")

    def ask(self, method, **words):
        self.number += 1
        message = {"id": self.number, "method": method, "params": words}
        if self.session:
            message["sessionId"] = self.session
        os.write(self.to, json.dumps(message).encode() + b"\0")
        while True:
            while b"\0" not in self.rest:
                self.rest += os.read(self.back, 1 << 20)
            line, self.rest = self.rest.split(b"\0", 1)
            answer = json.loads(line)
            if answer.get("id") == self.number:
                return answer.get("result", {})
            self.said.append(answer)

    def value(self, script):
        answer = self.ask("Runtime.evaluate", expression=script, returnByValue=True, awaitPromise=True)
        look("exceptionDetails" not in answer, f"{script[:80]}: {json.dumps(answer.get('exceptionDetails'))[:300]}")
        return answer.get("result", {}).get("value")

    def text(self, name):
        return self.value(f"document.getElementById('{name}').textContent")

    def open(self, place=""):
        self.ask("Page.navigate", url="about:blank")
        self.ask("Page.navigate", url=f"file://{PAGE}{place}")
        while self.value("document.readyState === 'complete' && typeof shown === 'object' && shown.run !== null") is not True:
            time.sleep(.01)

    def size(self, width, height, scheme="light", media=""):
        self.ask("Emulation.setDeviceMetricsOverride", width=width, height=height, deviceScaleFactor=1, mobile=width < 500)
        self.ask("Emulation.setEmulatedMedia", media=media, features=[{"name": "prefers-color-scheme", "value": scheme}])

    def drop(self, text):
        """Drops a text, and says how many milliseconds went by until it was laid out and two frames were painted."""
        return self.value("(async () => { const data = new DataTransfer(); data.setData('text/plain', " + json.dumps(text) + ");"
                          "const start = performance.now();"
                          "document.dispatchEvent(new DragEvent('drop', { dataTransfer: data, bubbles: true, cancelable: true }));"
                          "document.body.getBoundingClientRect();"
                          "await new Promise(then => requestAnimationFrame(() => requestAnimationFrame(then)));"
                          "return performance.now() - start; })()")

    def columns(self):
        """What the columns of the view say, once all of them are drawn."""
        return self.value("(async () => { drawAll(); return [...document.querySelectorAll('#picture .column')].map(c => "
                          "[...c.querySelectorAll('text')].map(t => t.textContent)); })()")

    def press(self, key):
        self.value(f"find('picture').dispatchEvent(new KeyboardEvent('keydown', {{ key: '{key}', bubbles: true }}))")
        return self.text("word")

    def click(self, x, y):
        """Clicks at a place of the picture, in its own measures."""
        self.value("(() => { const corner = find('strip').getBoundingClientRect();"
                   "find('picture').dispatchEvent(new MouseEvent('click', { bubbles: true,"
                   f"clientX: corner.left + NAMES + {x}, clientY: corner.top + {y} }})); }})()")
        return self.text("word")

    def close(self):
        self.process.terminate()
        self.process.wait()


# ---- Sessions, and what they say by themselves ----

def source_of(name):
    with open(os.path.join(TOP, "examples", f"{name.split('-')[0]}.s")) as file:
        return file.read().split("\nprogram\n")[0] + "\n"


@functools.lru_cache(None)
def session(source, absent, schedule, events, mode=""):
    done = subprocess.run([os.path.join(TOP, "contrib", "session"), absent, schedule, events, *filter(None, [mode])],
                          input=source, stdout=subprocess.PIPE, stderr=subprocess.DEVNULL, text=True, check=True)
    return done.stdout


def heads():
    """The examples whose sessions stand in the page, with their words, and the short forms of their sessions."""
    with open(os.path.join(TOP, "web", "examples.js")) as file:
        runs = re.search(r"RUNS = `\n(.*?)`", file.read(), re.S).group(1).replace("\\\n", "")
    known = {line.split(" | ")[0]: line.split(" | ", 7) for line in runs.splitlines()}
    with open(PAGE) as file:
        stored = re.search(r'id="sessions">\n(.*?)</script>', file.read(), re.S).group(1)
    for part in re.split(r"^# ", stored, flags=re.M)[1:]:
        key, body = part.split("\n", 1)
        _, title, absent, schedule, mode, events, page, command = known[key]
        yield {"key": key, "title": title, "absent": absent, "schedule": schedule, "mode": mode.strip(), "events": events,
               "page": page, "command": command, "short": body}


def session_of(head):
    return session(source_of(head["key"]), head["absent"], head["schedule"], head["events"], head["mode"])


class Column:
    """An event of a session, or what stood before the first, with the words after it."""

    def __init__(self, event, lines):
        words = re.findall(r"\b[0-9A-F]{8}\b", lines[0])
        self.event = event
        self.pointers, self.epsr, self.ssbr = words[1:4], words[0], words[4]
        self.triples = [line.split()[1:] for line in lines[1:4]]
        self.registers = [word for line in lines[4:8] for word in line.split()[1:]]
        self.carry = lines[8].split()[1] if self.registers else None
        self.letter, self.kind = event.split()[1:3] if event else ("", "start")


def columns_of(text):
    event, lines = None, text.splitlines()
    out = []
    for n, line in enumerate(lines):
        if line.startswith("epsr"):
            out.append(Column(event, lines[n:n + 9]))
        elif line[0].isdigit():
            event = line
    return out


def short(text):
    """A session in the form in which it stands in the page, as the page says."""
    names = {"epsr": "e", "sxip": "x", "snip": "n", "sfip": "f", "ssbr": "s"}
    few = lambda word: word.lstrip("0") or "0"
    before = {**{name: "0" * 8 for name in [*names, *(f"r{r}" for r in range(32))]}, "c": "0", **{k: "0,0,0" for k in "012"}}
    out = []
    for column in columns_of(text):
        state = {"epsr": column.epsr, **dict(zip(["sxip", "snip", "sfip"], column.pointers)), "ssbr": column.ssbr, "c": column.carry,
                 **{str(k): ",".join(map(few, triple)) for k, triple in enumerate(column.triples)},
                 **{f"r{r}": word for r, word in enumerate(column.registers)}}
        straight = {"sxip": before["snip"], "snip": before["sfip"], "sfip": f"{(int(before['sfip'], 16) + 4) % 2**32:08X}"}
        changes = []
        if sum(state[name] == straight[name] != before[name] for name in straight) > 1:
            changes, before = ["+"], {**before, **straight}
        changes += [f"{names.get(name, name)}={'-' if word[0] == '-' else word if name in '012' else few(word)}"
                    for name, word in state.items() if word != before[name]]
        what = column.event.split(" ", 1)[1] if column.event else ""
        piece = (f"{what}|{' '.join(changes)}" if changes else what) + ";"
        if out and len(out[-1]) + 1 + len(piece) <= 126:
            out[-1] += f" {piece}"
        else:
            out.append(piece)
        before = state
    return "\n".join(out)[:-1] + "\n"


def told(triple):
    """What a transaction is in the words of the page, from its bits by docs/BOARD.md."""
    dmt, dmd, dma = (int(word, 16) for word in triple)
    mask = f"{dmt >> 2 & 15:04b}"
    count, first = mask.count("1"), mask.index("1")
    span = {4: "", 2: " half", 1: " byte"}[count]
    place = f"{dma + first:08X}"
    datum = f"{dmd:08X}"[8 - 2 * count:]
    what = f"store{span} {datum} to {place}" if dmt & 2 else f"load{span} r{dmt >> 7 & 31} from {place}"
    marks = [text for is_so, text in [(dmt & 64 and count < 4, "with its sign"), (dmt & 4096, "half of an exchange"),
                                      (dmt & 8192, "first half of a double")] if is_so]
    return what + (f" ({', '.join(marks)})" if marks else "")


def bars_of(columns):
    """From the texts of the instructions and the events alone: [from, to, how, words] of each transaction, the way it ends."""
    bars, pending = [], []
    for k, column in enumerate(columns):
        over = {"answer": 1, "fault": len(pending)}.get(column.kind, 0)
        for n, bar in enumerate(pending[:over]):
            bar[1:3] = [k, "answered" if column.kind == "answer" else "finished" if n else "faulted"]
        pending = pending[over:]
        mnemonic = column.event.split()[4] if column.kind == "issue" else ""
        made = 2 if re.match(r"(ld|st)\.d|xmem", mnemonic) else 1 if re.match(r"(ld|st)(\.|$)", mnemonic) else 0
        for n in range(made):
            bars.append([k, len(columns), "pending", told(column.triples[len(pending)])])
            pending.append(bars[-1])
    return bars


def waits_of(columns):
    """From the registers alone: [register, from, to] of each that waits."""
    out = []
    for r in range(32):
        begun = None
        for k, column in enumerate([*columns, None]):
            waits = column is not None and column.registers[r] == "--------"
            if waits and begun is None:
                begun = k
            elif not waits and begun is not None:
                out.append([r, begun, k])
                begun = None
    return sorted(out)


def pointer(word):
    n = int(word, 16)
    return f"{n & ~3:08X} {'V' if n & 2 else '-'}{'E' if n & 1 else '-'}"


def record_of(column):
    """A record as the page shows it: an empty triple as dots."""
    words = dict(zip(["EPSR", "SXIP", "SNIP", "SFIP", "SSBR"], [column.epsr, *column.pointers, column.ssbr]))
    for k, (dmt, dmd, dma) in enumerate(column.triples):
        is_empty = not int(dmt, 16) & 1
        words.update({f"{name}{k}": "·" if is_empty else word for name, word in zip(["DMT", "DMD", "DMA"], [dmt, dmd, dma])})
    return [f"{name} {word}" for name, word in words.items()]
