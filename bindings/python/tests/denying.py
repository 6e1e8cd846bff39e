"""What tests of the command `deny` share: a list of names, and calls."""

import json
import tempfile
import unittest

from command import run

ZONE = """\
Z.Shop.example.com. A
example.com. SOA NS DNSKEY

  sub.example.com.\tNS
*.dyn.example.com.  A TYPE1234
z.shop.example.com. MX
"""


class Denying(unittest.TestCase):
    def setUp(self):
        folder = tempfile.TemporaryDirectory()
        self.addCleanup(folder.cleanup)
        self.zone = folder.name + "/zone"
        with open(self.zone, "w") as file:
            file.write(ZONE)

    def deny(self, *arguments, **options):
        status, out, err = run("deny", *arguments, **options)
        self.assertEqual((status, err), (0, ""), arguments)
        return out.splitlines()

    def records(self, *arguments):
        """The lines that are no comment."""
        return [line for line in self.deny(*arguments) if not line.startswith(";")]

    def told(self, *arguments, status=0):
        got, out, err = run("deny", "--json", *arguments)
        self.assertEqual((got, err), (status, ""), arguments)
        return json.loads(out)

    def refused(self, sentence, *arguments, status=1):
        got, out, err = run("deny", *arguments)
        self.assertEqual((got, out), (status, ""), arguments)
        self.assertIn(sentence, err)
