"""A browser without a window, spoken to over a pipe by the protocol of its developer tools: JSON, each message ended by a zero."""
import base64
import json
import os
import shutil
import struct
import subprocess
import tempfile
import zlib

FLAGS = ["--headless", "--remote-debugging-pipe", "--no-sandbox", "--disable-gpu", "--disable-dev-shm-usage", "--hide-scrollbars",
         "--no-first-run", "--disable-extensions", "--disable-background-networking"]


def _pipes(read, write):
    """The browser reads from 3 and writes to 4."""
    read, write = os.dup(read), os.dup(write)
    high = max(read, write, 10)
    os.dup2(read, high + 1), os.dup2(write, high + 2)
    os.dup2(high + 1, 3), os.dup2(high + 2, 4)


class Browser:
    """Debian's chromium, for as long as the `with` lasts."""
    def __init__(self):
        self.profile, self.asked, self.rest, self.session = tempfile.mkdtemp(), 0, b"", None

    def __enter__(self):
        (theirs, self.out), (self.back, ours) = os.pipe(), os.pipe()
        self.process = subprocess.Popen(["chromium", *FLAGS, f"--user-data-dir={self.profile}", "about:blank"], close_fds=False,
                                        preexec_fn=lambda: _pipes(theirs, ours), stderr=subprocess.DEVNULL)
        os.close(theirs), os.close(ours)
        page = self.ask("Target.createTarget", url="about:blank")["targetId"]
        self.session = self.ask("Target.attachToTarget", targetId=page, flatten=True)["sessionId"]
        self.ask("Page.enable")
        return self

    def __exit__(self, *_):
        self.process.terminate()
        self.process.wait()
        os.close(self.out), os.close(self.back)
        shutil.rmtree(self.profile, ignore_errors=True)

    def _message(self):
        while b"\0" not in self.rest:
            read = os.read(self.back, 1 << 20)
            if not read:
                raise RuntimeError("the browser has ended")
            self.rest += read
        message, _, self.rest = self.rest.partition(b"\0")
        return json.loads(message)

    def ask(self, method, **parameters):
        """What the browser answers to a method; events that come before it are passed over."""
        self.asked += 1
        page = {"sessionId": self.session} if self.session else {}
        os.write(self.out, json.dumps({"id": self.asked, "method": method, "params": parameters, **page}).encode() + b"\0")
        answer = self._message()
        while answer.get("id") != self.asked:
            answer = self._message()
        if "error" in answer:
            raise RuntimeError(f"{method}: {answer['error']}")
        return answer["result"]

    def open(self, path, width, height, theme="light"):
        """Opens a file as a page of its own."""
        self.ask("Emulation.setEmulatedMedia", features=[{"name": "prefers-color-scheme", "value": theme}])
        self.ask("Emulation.setDeviceMetricsOverride", width=width, height=height, deviceScaleFactor=1, mobile=False)
        self.ask("Page.navigate", url=path.resolve().as_uri())
        while self._message().get("method") != "Page.loadEventFired":
            pass

    def evaluate(self, script):
        """The value of a script in the page."""
        result = self.ask("Runtime.evaluate", expression=script, returnByValue=True)
        if "exceptionDetails" in result:
            raise RuntimeError(str(result["exceptionDetails"]))
        return result["result"]["value"]

    def _shot(self, x, y, width, height):
        clip = dict(x=x, y=y, width=width, height=height, scale=1)
        return base64.b64decode(self.ask("Page.captureScreenshot", format="png", clip=clip, captureBeyondViewport=True)["data"])

    def screenshot(self, path, width, height):
        """Keeps the page as it looks."""
        path.write_bytes(self._shot(0, 0, width, height))

    def pixels(self, x, y, width, height):
        """The colours that occur in a part of the page, by whole pixels."""
        return set(_colours(self._shot(round(x), round(y), round(width), round(height))))


def _chunks(png):
    at = 8
    while at < len(png):
        length, kind = struct.unpack(">I4s", png[at:at + 8])
        yield kind, png[at + 8:at + 8 + length]
        at += 12 + length


def _colours(png):
    """The pixels of a PNG of 8 bits a channel without interlacing, as the browser makes them."""
    parts = list(_chunks(png))
    width, height, depth, kind, _, _, interlaced = struct.unpack(">IIBBBBB", parts[0][1])
    assert (depth, interlaced) == (8, 0)
    step = {2: 3, 6: 4}[kind]
    data, before = zlib.decompress(b"".join(body for name, body in parts if name == b"IDAT")), bytearray(width * step)
    for row in range(height):
        at = row * (width * step + 1)
        line = bytearray(data[at + 1:at + 1 + width * step])
        for i in range(len(line)):
            left, up, corner = line[i - step] if i >= step else 0, before[i], before[i - step] if i >= step else 0
            guess = left + up - corner
            nearest = min((left, up, corner), key=lambda value: abs(guess - value))
            line[i] = (line[i] + (0, left, up, (left + up) // 2, nearest)[data[at]]) % 256
        yield from (bytes(line[i:i + 3]) for i in range(0, len(line), step))
        before = line
