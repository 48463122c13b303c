"""A router with recorded answers for the tests: an SSH server on the loopback address."""
import socket
import threading
import time

import paramiko

PASSWORD = "told in the environment"
MORE = b" --More-- "
WIPE = b"\x08" * 10 + b" " * 10 + b"\x08" * 10


class Login(paramiko.ServerInterface):
    """Who may log in: one name with a password, or with a key."""

    def __init__(self, key):
        self.key = key

    def check_auth_password(self, username, password):
        right = (username, password) == ("reader", PASSWORD)
        return paramiko.AUTH_SUCCESSFUL if right else paramiko.AUTH_FAILED

    def check_auth_publickey(self, username, key):
        return paramiko.AUTH_SUCCESSFUL if username == "reader" and key == self.key else paramiko.AUTH_FAILED

    def get_allowed_auths(self, username):
        return "password,publickey"

    def check_channel_request(self, kind, chanid):
        return paramiko.OPEN_SUCCEEDED

    def check_channel_pty_request(self, *words):
        return True

    def check_channel_shell_request(self, channel):
        return True


class FakeRouter:
    """A device with answers by command. `behaviour` is '' for a device as it should be, 'pages' for one that pages its answers,
    'returns' for one whose pager wipes by carriage returns, 'dies' for one that ends the session within its second answer,
    'stops' for one that says nothing more within it, 'deaf' for one that takes no login."""

    def __init__(self, name, answers, behaviour="", client_key=None):
        self.name, self.answers, self.behaviour, self.client_key = name, answers, behaviour, client_key
        self.host_key = paramiko.RSAKey.generate(1024)
        self.listener = socket.socket()
        self.listener.bind(("127.0.0.1", 0))
        self.listener.listen(5)
        self.port = self.listener.getsockname()[1]
        self.open = True
        threading.Thread(target=self.serve, daemon=True).start()

    def known_host(self):
        """The line of a file of known hosts."""
        return "[127.0.0.1]:%d ssh-rsa %s\n" % (self.port, self.host_key.get_base64())

    def close(self):
        self.open = False
        self.listener.close()

    def serve(self):
        while self.open:
            try:
                client, _ = self.listener.accept()
            except OSError:
                return
            threading.Thread(target=self.talk, args=(client,), daemon=True).start()

    def talk(self, client):
        if self.behaviour == "deaf":
            time.sleep(30)
            return
        transport = paramiko.Transport(client)
        try:
            transport.add_server_key(self.host_key)
            transport.start_server(server=Login(self.client_key))
            channel = transport.accept(20)
            if channel is not None:
                self.shell(channel)
        except (OSError, EOFError, paramiko.SSHException):
            pass
        finally:
            transport.close()

    def shell(self, channel):
        """Lines in, answers out, each behind its echo and before the prompt."""
        prompt = ("%s#" % self.name).encode()
        channel.sendall(b"\r\n" + prompt)
        typed = b""
        while True:
            piece = channel.recv(1024)
            if not piece:
                return
            typed += piece
            while b"\n" in typed or b"\r" in typed:
                line, typed = self.next_line(typed)
                channel.sendall(line + b"\r\n")
                if not self.answer(channel, line.decode().strip()):
                    return
                channel.sendall(prompt)

    @staticmethod
    def next_line(typed):
        ends = [typed.index(end) for end in (b"\n", b"\r") if end in typed]
        return typed[:min(ends)], typed[min(ends) + 1:]

    def answer(self, channel, command):
        """Sends an answer; False where the session is over."""
        if command == "exit":
            return False
        lines = self.answers.get(command, b"").split(b"\n")
        if command == "show ip route" and self.behaviour in ("dies", "stops"):
            channel.sendall(b"\r\n".join(lines[:len(lines) // 2]) + b"\r\n")
            if self.behaviour == "stops":
                time.sleep(30)
            return False
        for number, line in enumerate(lines):
            if line == b"" and number == len(lines) - 1:
                break
            if self.behaviour in ("pages", "returns") and number and number % 5 == 0:
                channel.sendall(MORE)
                channel.recv(1)
                channel.sendall(WIPE if self.behaviour == "pages" else b"\r" + b" " * 10 + b"\r")
            channel.sendall(line + b"\r\n")
        return True
