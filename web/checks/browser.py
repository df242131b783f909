"""A Chromium without a window, which a test drives as a person would."""

import json
import os
import shutil
import subprocess
import time

WEB = os.path.dirname(os.path.dirname(os.path.realpath(__file__)))
NAMES = ("chromium", "chromium-headless-shell", "google-chrome", "google-chrome-stable", "chromium-browser")


class Browser:
    """A Chromium, spoken to by the DevTools protocol over two pipes: messages of JSON, each ended by a zero byte."""

    def __init__(self, program, folder):
        theirs_in, self.to = os.pipe()
        self.come, theirs_out = os.pipe()
        words = [program, "--headless", "--remote-debugging-pipe", f"--user-data-dir={folder}/profile", "--no-first-run",
                 "--disable-gpu", "--window-size=1240,900", "--host-resolver-rules=MAP * ~NOTFOUND"]
        words += ["--no-sandbox"] * (os.geteuid() == 0) + ["about:blank"]
        shell = ["sh", "-c", f'exec "$@" 3<&{theirs_in} 4>&{theirs_out}', "sh", *words]
        self.process = subprocess.Popen(shell, pass_fds=(theirs_in, theirs_out), stdout=subprocess.DEVNULL,
                                        stderr=subprocess.DEVNULL)
        os.close(theirs_in), os.close(theirs_out)
        self.held, self.number, self.session, self.asked, self.ended = b"", 0, None, [], []

    def receive(self):
        while b"\0" not in self.held:
            more = os.read(self.come, 1 << 16)
            if not more:
                raise EOFError("the browser ended")
            self.held += more
        message, self.held = self.held.split(b"\0", 1)
        return json.loads(message)

    def send(self, method, **given):
        self.number += 1
        message = {"id": self.number, "method": method, "params": given}
        if self.session:
            message["sessionId"] = self.session
        data = json.dumps(message).encode() + b"\0"
        while data:
            data = data[os.write(self.to, data):]
        while True:
            answer = self.receive()
            if answer.get("method") == "Network.requestWillBeSent":
                self.asked.append(answer["params"]["request"]["url"])
            if answer.get("method") == "Browser.downloadProgress" and answer["params"]["state"] != "inProgress":
                self.ended.append(answer["params"]["state"])
            if answer.get("id") == self.number:
                if "error" in answer:
                    raise RuntimeError(f"{method}: {answer['error']}")
                return answer["result"]

    def open(self, url):
        target = self.send("Target.createTarget", url="about:blank")["targetId"]
        self.session = self.send("Target.attachToTarget", targetId=target, flatten=True)["sessionId"]
        self.send("Network.enable")
        self.send("DOM.enable")
        self.send("Page.navigate", url=url)

    def ask(self, expression):
        answer = self.send("Runtime.evaluate", expression=expression, awaitPromise=True, returnByValue=True)
        if "exceptionDetails" in answer:
            raise RuntimeError(answer["exceptionDetails"]["exception"].get("description", "an exception"))
        return answer["result"].get("value")

    def wait(self, *states):
        for _ in range(3000):
            state = self.ask("document.body && document.body.dataset.state")
            if state in states:
                return state
            time.sleep(0.02)
        raise TimeoutError(f"the page's state is {state}")

    def press_to_save(self, button, folder):
        """Presses a button that saves a file into a folder; returns once the browser says that all of it is there."""
        self.send("Browser.setDownloadBehavior", behavior="allow", downloadPath=folder, eventsEnabled=True)
        self.ended.clear()
        self.ask(f"at('{button}').click()")
        for _ in range(3000):
            self.ask("null")
            if self.ended:
                break
            time.sleep(0.02)
        if self.ended != ["completed"]:
            raise TimeoutError(f"{button}: the file is not saved in a minute: {self.ended}")

    def give(self, path):
        """Chooses a file, as a person does."""
        self.ask("document.body.dataset.state = 'given'")
        root = self.send("DOM.getDocument")["root"]["nodeId"]
        node = self.send("DOM.querySelector", nodeId=root, selector="#file")["nodeId"]
        self.send("DOM.setFileInputFiles", nodeId=node, files=[path])
        return self.wait("shown", "failed")

    def end(self):
        try:
            self.send("Browser.close")
            self.process.wait(20)
        except (OSError, EOFError, RuntimeError, subprocess.TimeoutExpired):
            self.process.kill()
            self.process.wait()
        # The shell that begins the next one takes descriptors below 10 alone.
        os.close(self.to), os.close(self.come)


def browser_of(folder):
    """A browser that runs the page, with the page open; None where there is none."""
    program = next((found for found in map(shutil.which, NAMES) if found), None)
    if program is None:
        print("left out: the page (no Chromium is installed)")
        return None
    browser = Browser(program, folder)
    try:
        browser.open(f"file://{WEB}/aes3.html")
    except (EOFError, BrokenPipeError):
        print(f"left out: the page ({program} does not start)")
        return None
    if browser.wait("ready", "failed") == "failed":
        print(f"left out: the page ({program} runs no WebAssembly with 64-bit memory)")
        browser.end()
        return None
    return browser
