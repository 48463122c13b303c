"""Collecting, tried against routers with recorded answers on the loopback address."""
import logging
import os
import unittest

import helpers

try:
    import netmiko
    import paramiko
    from fake_router import PASSWORD, FakeRouter
except ImportError:
    netmiko = None
else:
    # What the fake routers' own side logs says nothing of the program.
    logging.getLogger("paramiko").addHandler(logging.NullHandler())

EXAMPLE = os.path.join(helpers.TOP, "examples", "ospf")


@unittest.skipIf(netmiko is None, "Debian's package python3-netmiko isn't there")
class Collecting(helpers.Folders):
    """Devices as they should be, and each way in which one fails."""

    def setUp(self):
        super().setUp()
        with open(os.path.join(EXAMPLE, "devices/old/CORE1.cfg"), "rb") as file:
            # A byte that is no text anywhere has to come over as it is.
            self.running = file.read().replace(b"description to EDGE", b"description to EDGE \xe9")
        with open(os.path.join(EXAMPLE, "routes/CORE1.txt"), "rb") as file:
            self.routes = file.read()

    def answers(self, **changed):
        given = {"show running-config": changed.get("running", self.running), "show ip route": changed.get("routes", self.routes)}
        return given | changed.get("more", {})

    def routers(self, *kinds, known=True):
        """Fake routers, one for each pair of answers and a behaviour, with the inventory and the file of known hosts."""
        self.fakes = [FakeRouter("R%d" % number, *kind) for number, kind in enumerate(kinds, 1)]
        for fake in self.fakes:
            self.addCleanup(fake.close)
        self.write("inventory", ["! name, address, port"] + ["%s 127.0.0.1 %d" % (fake.name, fake.port) for fake in self.fakes])
        self.write("known", "".join(fake.known_host() for fake in self.fakes) if known else "")

    def environment(self, **words):
        found = dict(DIQENYU_USER="reader", DIQENYU_PASSWORD=PASSWORD, DIQENYU_KNOWN_HOSTS=self.path("known"), DIQENYU_TIMEOUT="6")
        found.update({"DIQENYU_" + name: value for name, value in words.items()})
        return found

    def test_devices_that_answer(self):
        self.routers((self.answers(),), (self.answers(), "pages"), (self.answers(), "returns"))
        status, told = self.run_program("collect", "inventory", "out", environment=self.environment())
        self.assertEqual(status, 0, told)
        self.assertEqual(len(told.split("\n")), 7)
        for name in ("R1", "R2", "R3"):
            for path, wanted in (("configs/%s.cfg", self.running), ("routes/%s.txt", self.routes)):
                with open(self.path("out", path % name), "rb") as file:
                    self.assertEqual(file.read(), wanted, name)

    def test_neighbors(self):
        """What a device says of neighbours stands in one file behind its commands; what it refuses or doesn't run is left out."""
        seen = b"-------------------------\nDevice ID: R2\nInterface: Ethernet0,  Port ID (outgoing port): Ethernet1\n"
        self.routers((self.answers(more={"show cdp neighbors detail": seen, "show lldp neighbors detail": b"% LLDP is not enabled\n"}),),
                     (self.answers(),))
        status, told = self.run_program("collect", "inventory", "out", environment=self.environment())
        self.assertEqual(status, 0, told)
        self.assertEqual(os.listdir(self.path("out", "neighbors")), ["R1.txt"])
        self.assertEqual(self.read("out/neighbors/R1.txt").encode(), b"R1#show cdp neighbors detail\n" + seen)

    def test_devices_that_fail(self):
        """Each is named at the end, in one line, and nothing is written, also not of the one that answered."""
        self.routers(
            (self.answers(),), (self.answers(), "dies"), (self.answers(), "stops"), (self.answers(), "deaf"),
            (self.answers(running=b"hostname R5\n"),), (self.answers(routes=self.routes.replace(b"O   ", b"Q   ")),),
            (self.answers(running=b"% Invalid input detected at '^' marker.\n"),))
        self.write("inventory", self.read("inventory") + "R8 127.0.0.1 1\n")
        self.assert_refused(4, [
            "cannot collect R2: it ended the session within its answer to show ip route",
            "cannot collect R3: no whole answer to show ip route in time",
            "cannot collect R4: it begins no session in time",
            "cannot collect R5: show running-config has no last line end",
            "cannot collect R6: show ip route: refused answer line 17 UnknownCode Q",
            "cannot collect R7: it refuses show running-config",
            "cannot collect R8: there is no connection in time",
        ], "inventory", "out", program="collect", environment=self.environment())

    def test_logins(self):
        self.routers((self.answers(),))
        self.assert_refused(4, ["cannot collect R1: it refuses the login"], "inventory", "out", program="collect",
                            environment=self.environment(PASSWORD="wrong"))
        for words in (dict(USER=""), dict(PASSWORD="")):
            self.assert_refused(4, ["cannot collect any device: the environment has no DIQENYU_USER with DIQENYU_PASSWORD or DIQENYU_KEY"],
                                "inventory", "out", program="collect", environment=self.environment(**words))

    def test_key(self):
        key = paramiko.RSAKey.generate(2048)
        key.write_private_key_file(self.path("key"))
        self.routers((self.answers(), "", key))
        status, told = self.run_program("collect", "inventory", "out", environment=self.environment(PASSWORD="", KEY=self.path("key")))
        self.assertEqual(status, 0, told)

    def test_device_that_is_not_known(self):
        self.routers((self.answers(),), known=False)
        self.assert_refused(4, ["cannot collect R1: its key isn't known: it is not in the file of known hosts"], "inventory", "out",
                            program="collect", environment=self.environment())

    def test_inventories(self):
        for lines, wanted in (
            (["R1"], "refused inventory line 1 MissingWord"),
            (["R1 127.0.0.1 22 cisco_ios more"], "refused inventory line 1 ExtraWord more"),
            (["R1 127.0.0.1 99999"], "refused inventory line 1 BadWord 99999"),
            (["R1 127.0.0.1 22 juniper"], "refused inventory line 1 BadWord juniper"),
            (["../R1 127.0.0.1"], "refused inventory line 1 BadWord ../R1"),
            (["R1 127.0.0.1", "R1 127.0.0.2"], "refused inventory line 2 NameTwice R1"),
            (["! nobody"], "refused inventory line 0 NoDevice"),
        ):
            self.write("inventory", lines)
            self.assert_refused(3, [wanted], "inventory", "out", program="collect", environment=self.environment())
        self.assert_refused(8, ["not found none"], "none", "out", program="collect")
        self.write("out/file", ["x"])
        self.assertEqual(self.run_program("collect", "inventory", "out"), (6, "cannot write out: it is there and not an empty folder\n"))


if __name__ == "__main__":
    unittest.main()
