"""The web page in headless Firefox: a script in a copy of the page works it, and hands what it saw to a server on this machine."""
import http.server
import json
import os
import re
import shutil
import subprocess
import threading

from picture_parts import look, same, skip
from web_page import LATE, TEACHING, beside, example, native

SCRIPT = """<script>
(async () => {
  const seen = {}, wait = async (is) => { for (let n = 0; n < 600 && !is(); n++) await new Promise(then => setTimeout(then, 20)); };
  try {
    const began = performance.now();
    await wait(() => document.body.dataset.ready === "1");
    seen.first = performance.now() - began;
    seen.sentence = find("sentence").textContent;
    setLetter("i");
    await wait(() => command.words.SCHEDULE === "iiiiiiii" && !workbench.isDrawing && shown.run.faults[0].at === 9);
    seen.later = shown.run.faults.map(({ at }) => at);
    await draw(9);
    seen.report = textOf(workbench.answer.bytes);
    editor.field.value = editor.field.value.replace("r4,r0,9", "r4,r0");
    editor.field.dispatchEvent(new Event("input"));
    await wait(() => find("said").classList.contains("wrong"));
    seen.said = find("said").textContent;
    seen.exercises = [];
    chooseRoom("exercises");
    for (const each of document.querySelectorAll("[data-exercise]")) {
      each.open = true;
      each.querySelector("[data-answer]").click();
      for (const button of each.querySelectorAll(".answer [data-try]")) {
        button.click();
        await draw();
        seen.exercises.push([each.dataset.exercise, textOf(workbench.answer.bytes)]);
      }
    }
    await openFile(new TextEncoder().encode("or r2,r0,1      ; a line of 32\\r\\n".repeat(32768)), "large.s");
    setCommand("m88 build");
    const built = performance.now();
    await run();
    seen.built = performance.now() - built;
    seen.records = workbench.answer.bytes.length;
    const source = "_start: or r3,r0,9\\nloop: ld r2,r0,0x5000\\n st r3,r0,0x6000\\n addu r4,r2,r4\\n br loop\\n";
    await workbench.take({ source, command: "m88 run", words: { LIMIT: "4000", ABSENT: "all", SCHEDULE: "-" } });
    const again = performance.now();
    await draw(10);
    seen.drawn = performance.now() - again;
    seen.events = shown.run.columns.length - 1;
    await workbench.take({ source: "", command: "m88 soak", words: { NUMBER: "7", COUNT: "400" } });
    await run();
    seen.soak = textOf(workbench.answer.bytes);
  } catch (error) { seen.error = String(error) + error.stack; }
  await fetch("http://127.0.0.1:PORT/", { method: "POST", body: JSON.stringify(seen) });
})();
</script></body>"""


def firefox(file, folder):
    program = next((p for p in ["firefox-esr", "firefox"] if shutil.which(p)), None)
    if program is None:
        return skip("the page in Firefox: it isn't installed")
    told, came = [], threading.Event()

    class Server(http.server.BaseHTTPRequestHandler):
        def do_POST(self):
            told.append(json.loads(self.rfile.read(int(self.headers["Content-Length"]))))
            self.send_response(200)
            self.send_header("Access-Control-Allow-Origin", "*")
            self.end_headers()
            came.set()

        def log_message(self, *_):
            pass
    server = http.server.HTTPServer(("127.0.0.1", 0), Server)
    threading.Thread(target=server.serve_forever, daemon=True).start()
    text, tail = open(file, encoding="utf-8").read().rsplit("</body>", 1)
    with open(os.path.join(folder, "firefox.html"), "w", encoding="utf-8") as copy:
        copy.write(text + SCRIPT.replace("PORT", str(server.server_port)) + tail)
    profile = os.path.join(folder, "profile")
    os.mkdir(profile)
    words = [program, "--headless", "--no-remote", "--profile", profile, f"file://{folder}/firefox.html"]
    ran = subprocess.Popen(words, stdout=subprocess.DEVNULL, stderr=subprocess.DEVNULL, env={**os.environ, "HOME": folder})
    came.wait(120)
    ran.terminate()
    ran.wait()
    seen = told[0] if told else {"error": "nothing came"}
    print(f"Firefox: first answer after {seen.get('first', 0):.0f} ms, "
          f"{seen.get('events', 0):,} events drawn anew in {seen.get('drawn', 0):.0f} ms")
    teaching = beside("teaching")
    text = open(TEACHING, encoding="utf-8").read()
    answers, written = teaching.parts(text, r"Answer (\d)"), iter(seen.get("exercises", []))
    for number, answer in answers.items():
        for block in teaching.blocks(answer):
            if teaching.is_command(block):
                told = next(written, [None, ""])
                same(told[0], str(number), "an exercise in Firefox")
            else:
                look(teaching.stand(block.splitlines(), told[1].splitlines()) is None, f"answer {number} in Firefox")
    print(f"Firefox: 1 MiB built in {seen.get('built', 0):.0f} ms")
    large = b"or r2,r0,1      ; a line of 32\r\n" * 32768
    same(seen.get("records"), len(native(["build"], large)[1]), "1 MiB in Firefox")
    same([seen.get("error"), seen.get("sentence"), seen.get("later"), seen.get("said")],
         [None, LATE.format(6), [9], "Line 8, column 22: syntax"], "Firefox")
    report = native(["run", "100", "5,6,7", "iiiiiiii"], example("late_fault.s"))[1]
    same(seen.get("report", "").encode(), report, "a report in Firefox")
    same(seen.get("soak", "").encode(), native(["soak", "7", "400"], b"")[1], "a workload in Firefox")
    return look(seen.get("drawn", 9999) < 1000 and seen.get("first", 9999) < 1000, "Firefox is as quick as it should be")
