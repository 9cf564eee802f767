"""A headless chromium, driven over its DevTools protocol with nothing but the standard library."""

import base64
import json
import os
import pathlib
import socket
import struct
import subprocess
import time

PATIENCE = 20  # seconds, for one answer


class Socket:
    """The client's side of a WebSocket: whole text messages, both ways."""

    TEXT, CLOSE, PING, PONG = 1, 8, 9, 10

    def __init__(self, port, path):
        self.stream = socket.create_connection(("127.0.0.1", port), timeout=PATIENCE)
        key = base64.b64encode(os.urandom(16)).decode()
        self.stream.sendall(
            f"GET {path} HTTP/1.1\r\nHost: 127.0.0.1:{port}\r\nUpgrade: websocket\r\n"
            f"Connection: Upgrade\r\nSec-WebSocket-Key: {key}\r\n"
            "Sec-WebSocket-Version: 13\r\n\r\n".encode()
        )
        self.received = b""
        while b"\r\n\r\n" not in self.received:
            self.receive_more()
        head, self.received = self.received.split(b"\r\n\r\n", 1)
        if b" 101 " not in head.split(b"\r\n")[0]:
            raise OSError(f"no WebSocket: {head!r}")

    def receive_more(self):
        more = self.stream.recv(1 << 16)
        if not more:
            raise OSError("the browser is gone")
        self.received += more

    def take(self, count):
        while len(self.received) < count:
            self.receive_more()
        taken, self.received = self.received[:count], self.received[count:]
        return taken

    def send(self, text, kind=TEXT):
        """One frame, masked as a client's must be; a mask of zeros leaves the bytes as they are."""
        data = text if isinstance(text, bytes) else text.encode()
        if len(data) < 126:
            length = struct.pack("!B", 0x80 | len(data))
        elif len(data) < 1 << 16:
            length = struct.pack("!BH", 0x80 | 126, len(data))
        else:
            length = struct.pack("!BQ", 0x80 | 127, len(data))
        self.stream.sendall(bytes([0x80 | kind]) + length + bytes(4) + data)

    def receive(self):
        """The next text message, put together from its frames."""
        message = b""
        while True:
            first, second = self.take(2)
            length = second & 0x7F
            if length == 126:
                (length,) = struct.unpack("!H", self.take(2))
            elif length == 127:
                (length,) = struct.unpack("!Q", self.take(8))
            data, kind = self.take(length), first & 0x0F
            if kind == self.CLOSE:
                raise OSError("the browser closed the connection")
            if kind == self.PING:
                self.send(data, self.PONG)
            elif kind != self.PONG:
                message += data
                if first & 0x80:
                    return message.decode()


class Browser:
    """One browser with one page in it."""

    def __init__(self, program, folder):
        self.folder = pathlib.Path(folder)
        command = [program, "--headless", "--no-sandbox", "--disable-gpu", "--no-first-run"]
        command += ["--disable-dev-shm-usage", "--disable-extensions", "--remote-debugging-port=0"]
        command += [f"--user-data-dir={self.folder}", "about:blank"]
        self.log = open(self.folder / "log", "w")
        self.process = subprocess.Popen(command, stdout=self.log, stderr=self.log)
        self.count, self.page, self.events = 0, None, []
        try:
            self.socket = Socket(*self.address())
            target = self.call("Target.createTarget", url="about:blank")["targetId"]
            attached = self.call("Target.attachToTarget", targetId=target, flatten=True)
            self.page = attached["sessionId"]
            for domain in ["Page", "Runtime", "Network", "Log"]:
                self.call(f"{domain}.enable")
        except BaseException:
            self.close()
            raise

    def address(self):
        """Where the browser listens, which it writes into its folder."""
        told = self.folder / "DevToolsActivePort"
        for _ in range(PATIENCE * 20):
            lines = told.read_text().split("\n") if told.exists() else []
            if len(lines) >= 2 and lines[1]:
                return int(lines[0]), lines[1]
            if self.process.poll() is not None:
                break
            time.sleep(0.05)
        raise OSError("the browser does not start: " + (self.folder / "log").read_text()[-2000:])

    def call(self, method, **parameters):
        self.count += 1
        message = {"id": self.count, "method": method, "params": parameters}
        if self.page:
            message["sessionId"] = self.page
        self.socket.send(json.dumps(message))
        while True:
            answer = json.loads(self.socket.receive())
            if answer.get("id") == self.count:
                if "error" in answer:
                    raise OSError(f"{method}: {answer['error']}")
                return answer["result"]
            self.events.append(answer)

    def open(self, path):
        """Opens a file and waits until it is loaded."""
        self.events.clear()
        self.call("Page.navigate", url=pathlib.Path(path).resolve().as_uri())
        while not any(event["method"] == "Page.loadEventFired" for event in self.events):
            self.events.append(json.loads(self.socket.receive()))

    def requests(self):
        """What was asked for since the page was opened."""
        sent = [event for event in self.events if event["method"] == "Network.requestWillBeSent"]
        return [event["params"]["request"]["url"] for event in sent]

    def complaints(self):
        """What the page's script or the browser complained of since then."""
        wanted = ("Runtime.exceptionThrown", "Runtime.consoleAPICalled", "Log.entryAdded")
        return [event["params"] for event in self.events if event["method"] in wanted]

    def value(self, expression):
        """What a piece of script gives."""
        result = self.call("Runtime.evaluate", expression=expression, returnByValue=True)
        if "exceptionDetails" in result:
            raise OSError(f"{expression}: {result['exceptionDetails']}")
        return result["result"].get("value")

    def key(self, key, code=0, shift=False):
        """Presses a key; letters as text, others by their code."""
        shared = {"key": key, "modifiers": 8 if shift else 0, "windowsVirtualKeyCode": code}
        if len(key) == 1 or key == "Enter":
            shared["text"] = "\r" if key == "Enter" else key
        self.call("Input.dispatchKeyEvent", type="keyDown", **shared)
        shared.pop("text", None)
        self.call("Input.dispatchKeyEvent", type="keyUp", **shared)

    def click(self, x, y):
        shared = {"x": x, "y": y, "button": "left", "clickCount": 1}
        self.call("Input.dispatchMouseEvent", type="mousePressed", **shared)
        self.call("Input.dispatchMouseEvent", type="mouseReleased", **shared)

    def size(self, width, height):
        shared = {"width": width, "height": height, "deviceScaleFactor": 1}
        self.call("Emulation.setDeviceMetricsOverride", mobile=False, **shared)

    def media(self, **features):
        listed = [{"name": name.replace("_", "-"), "value": of} for name, of in features.items()]
        self.call("Emulation.setEmulatedMedia", features=listed)

    def picture(self, path):
        """A picture of what the window shows."""
        taken = self.call("Page.captureScreenshot", format="png")
        pathlib.Path(path).write_bytes(base64.b64decode(taken["data"]))

    def close(self):
        self.process.terminate()
        try:
            self.process.wait(PATIENCE)
        except subprocess.TimeoutExpired:
            self.process.kill()
            self.process.wait()
        self.log.close()
