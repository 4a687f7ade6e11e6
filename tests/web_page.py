"""What tests/web_browser leans on: the page in Chromium, worked by the mouse and the keys, and what the programs write."""
import base64
import importlib.machinery
import importlib.util
import json
import os
import re
import subprocess
import time

from picture_parts import TOP, Browser, look

TEACHING = os.path.join(TOP, "docs", "TEACHING.md")
LATE = "The load of r2 from 00005000 meets an absent page, {} events and 5 instructions after its issue: data fault 1, and the " \
       "monitor finishes all three transactions, so r2 becomes 11223344 and r3 becomes FFFFFF80."
KEYS = {"Enter": 13, "Tab": 9, "Escape": 27, "End": 35, "Home": 36, "ArrowLeft": 37, "ArrowUp": 38, "ArrowRight": 39, "ArrowDown": 40}


def beside(name):
    """Another script of this folder, as a module."""
    path = os.path.join(TOP, "tests", name)
    spec = importlib.util.spec_from_loader(name, importlib.machinery.SourceFileLoader(name, path))
    module = importlib.util.module_from_spec(spec)
    spec.loader.exec_module(module)
    return module


def example(name):
    with open(os.path.join(TOP, "examples", name), "rb") as file:
        return file.read()


def native(words, given, program="m88"):
    done = subprocess.run([os.path.join(TOP, program), *words], input=given, capture_output=True)
    return done.returncode, done.stdout


class Page(Browser):
    """The page in Chromium, worked by the mouse and the keys."""
    pictures = None  # the folder that pictures are kept in

    def open(self, page, place=""):
        """Opens the page, and says after how many milliseconds its first answer stood there."""
        self.ask("Page.navigate", url="about:blank")
        self.ask("Page.navigate", url=f"file://{page}{place}")
        self.wait("document.body && document.body.dataset.ready === '1'")
        return self.value("performance.now()")

    def wait(self, script, seconds=20):
        until = time.time() + seconds
        while time.time() < until:
            if self.ask("Runtime.evaluate", expression=script, returnByValue=True).get("result", {}).get("value") is True:
                return True
            time.sleep(.01)
        return look(False, f"it never came: {script}")

    def settle(self):
        """Until what was changed is drawn."""
        self.wait("!workbench.isDrawing && !find('page').classList.contains('stale')")

    def place(self, element):
        """The middle of an element, which is brought into view, and whether it is what lies there."""
        return self.value("(() => { const it = " + element + "; it.scrollIntoView({ block: 'center', inline: 'center' });"
                          "const { left, top, width, height } = it.getBoundingClientRect(), x = left + width / 2, y = top + height / 2;"
                          "const seen = document.elementFromPoint(x, y), picture = it.closest('#picture');"
                          "return [x, y, Boolean(seen && (it.contains(seen) || seen.contains(it) || picture?.contains(seen)))]; })()")

    def click(self, element):
        x, y, is_seen = self.place(element)
        look(is_seen, f"{element} is covered")
        for kind in ["mousePressed", "mouseReleased"]:
            self.ask("Input.dispatchMouseEvent", type=kind, x=x, y=y, button="left", clickCount=1)

    def press(self, key, control=False):
        code = KEYS.get(key, ord(key.upper()[0]))
        text = {} if key in KEYS and key != "Enter" or control else {"text": "\r" if key == "Enter" else key}
        for kind in ["keyDown", "keyUp"]:
            self.ask("Input.dispatchKeyEvent", type=kind, key=key, code=key, windowsVirtualKeyCode=code,
                     modifiers=2 if control else 0, **(text if kind == "keyDown" else {}))

    def select(self, text):
        """Selects a text in the source, to be typed over."""
        self.value("(() => { const field = find('source'), at = field.value.indexOf(" + json.dumps(text) + "); field.focus();"
                   f"field.setSelectionRange(at, at + {len(text)}); }})()")

    def type(self, text):
        self.ask("Input.insertText", text=text)

    def drop(self, name, content):
        """Drops a file on the page."""
        packed = base64.b64encode(content).decode()
        self.value("(() => { const data = new DataTransfer(), bytes = Uint8Array.from(atob('" + packed + "'), c => c.charCodeAt(0));"
                   f"data.items.add(new File([bytes], {json.dumps(name)}));"
                   "document.dispatchEvent(new DragEvent('drop', { dataTransfer: data, bubbles: true, cancelable: true })); })()")

    def take(self, source, key="m88 run", **words):
        self.value(f"workbench.take({{ source: {json.dumps(source)}, command: {json.dumps(key)}, words: {json.dumps(words)} }})")

    def answer(self):
        """The bytes of the answer."""
        return base64.b64decode(self.value("(() => { let out = '';"
                                           "for (const each of workbench.answer.bytes) out += String.fromCharCode(each);"
                                           "return btoa(out); })()"))

    def run(self):
        """Presses Run, and waits for the answer: its status and what it wrote."""
        self.click("find('run')")
        self.wait("find('cancel').disabled && / status /.test(find('status').textContent)", 60)
        return int(re.search(r"status (-?\d+)", self.text("status"))[1]), self.answer()

    def picture(self, name):
        """Keeps what is seen, where pictures are wanted."""
        if self.pictures:
            with open(os.path.join(self.pictures, f"{name}.png"), "wb") as file:
                file.write(base64.b64decode(self.ask("Page.captureScreenshot")["data"]))
