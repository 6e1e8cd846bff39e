"""Odd inputs: nothing, far too much, wrong types, views, numbers out of range, and many threads at once."""

import pickle
import threading
import unittest

import qorshudan
from notation import APEX, in_digits, paper

LONG = "a" * 10_000
OF_NAME = [qorshudan.check, qorshudan.wire, qorshudan.text, qorshudan.fold, qorshudan.key, qorshudan.wildcard]
OF_NAME += [qorshudan.label_places, qorshudan.labels]
OF_BITMAP = [qorshudan.read_types, qorshudan.count_types, qorshudan.smallest_type, qorshudan.largest_type]


class Odd(unittest.TestCase):
    def refused(self, kind, call, *arguments, **options):
        with self.assertRaises(kind) as raised:
            call(*arguments, **options)
        self.assertIs(type(raised.exception), kind)
        return raised.exception

    def test_nothing(self):
        for call in OF_NAME:
            refused = self.refused(qorshudan.NotAText, call, "")
            self.assertEqual((refused.number, refused.reason, refused.place), (14, None, 0))
            refused = self.refused(qorshudan.BadName, call, b"")
            self.assertEqual((refused.number, refused.reason, refused.place), (4, 1, 0))
        self.assertEqual(qorshudan.write_types([]), b"")
        self.assertEqual(qorshudan.read_types(b""), set())
        self.assertIsNone(qorshudan.smallest_type(b""))
        self.refused(qorshudan.NotAHash, qorshudan.hash_after, b"")
        self.refused(qorshudan.NotAHash, qorshudan.hash_after, "")
        self.assertIsNone(qorshudan.closest_encloser(b"", b"", b""))
        self.refused(qorshudan.BadApex, qorshudan.successor, b"", b"")

    def test_ten_thousand(self):
        for call in OF_NAME:
            self.assertEqual(self.refused(qorshudan.NotAText, call, LONG).place, 63)
            self.assertEqual(self.refused(qorshudan.BadName, call, LONG.encode()).place, 0)
        self.assertEqual(self.refused(qorshudan.NotAText, qorshudan.wire, "a." * 5000).place, 254)
        self.refused(qorshudan.NotAHash, qorshudan.read_hash_label, LONG)
        self.assertEqual(self.refused(qorshudan.NotAKey, qorshudan.from_key, LONG.encode()).place, 63)
        self.assertEqual(self.refused(qorshudan.NotASet, qorshudan.read_types, bytes(10_000)).place, 1)
        every = set(range(65536))
        self.assertEqual(qorshudan.read_types(qorshudan.write_types(every)), every)

    def test_not_ascii(self):
        for text, place in (("bücher.example.", 1), ("\udcff.", 0), ("a\ud800.", 1), ("a\0b.", 1), ("a b.", 1), ("\x7f.", 0)):
            self.assertEqual(self.refused(qorshudan.NotAText, qorshudan.wire, text).place, place)
        self.refused(qorshudan.NotAHash, qorshudan.read_hash_label, "ü" * 32)

    def test_zero_octets_inside(self):
        name = b"\3a\0b\0"
        self.assertEqual(qorshudan.check(name), 5)
        self.assertEqual(qorshudan.text(name), r"a\000b.")
        self.assertEqual(qorshudan.from_key(qorshudan.key(name), bytes), name)

    def test_wrong_types(self):
        for wrong in (None, 5, 5.0, ["example.com."], object(), APEX.decode("latin-1").encode("utf-16").__class__):
            for call in OF_NAME:
                self.refused(TypeError, call, wrong)
            self.refused(TypeError, qorshudan.compare, APEX, wrong)
            self.refused(TypeError, qorshudan.successor, wrong, APEX)
            self.refused(TypeError, qorshudan.successor, APEX, wrong)
            self.refused(TypeError, qorshudan.closest_encloser, APEX, wrong, APEX)
            self.refused(TypeError, qorshudan.from_key, wrong)
            self.refused(TypeError, qorshudan.hash_after, wrong)
            self.refused(TypeError, qorshudan.write_hash_label, wrong)
            self.refused(TypeError, qorshudan.read_hash_label, wrong)
            for call in OF_BITMAP:
                self.refused(TypeError, call, wrong)
        for wrong in ("255", 255.0, None):
            self.refused(TypeError, qorshudan.successor, APEX, APEX, wrong)
            if wrong is not None:
                self.refused(TypeError, qorshudan.successor, APEX, APEX, modified=True, depth=wrong)
        self.refused(TypeError, qorshudan.successor, APEX, APEX, depth=2)
        self.refused(TypeError, qorshudan.write_types, "A")
        self.refused(TypeError, qorshudan.write_types, b"\1")
        self.refused(TypeError, qorshudan.write_types, [1.0])
        self.refused(TypeError, qorshudan.from_key, b"", int)
        self.refused(TypeError, qorshudan.read_types, "0006")

    def test_numbers_out_of_range(self):
        """A number that has more bits than the library takes is never cut down to one that would do."""
        for limit in (0, 256, -1, -255, 1 << 64, (1 << 64) + 255, 10**100):
            self.refused(qorshudan.BadLimit, qorshudan.successor, APEX, APEX, limit)
        for one in (-1, 65536, 65537, 1 << 64):
            self.refused(ValueError, qorshudan.write_types, [one])
            self.refused(ValueError, qorshudan.has_type, b"", one)

    def test_views(self):
        name = paper("Foo")
        odd = memoryview(b"".join(bytes([octet, 99]) for octet in name))[::2]
        self.assertEqual(qorshudan.fold(odd), paper("foo"))
        self.assertEqual(qorshudan.fold(bytearray(name)), paper("foo"))
        self.assertIs(type(qorshudan.fold(bytearray(name))), bytes)
        given = bytearray(name)
        qorshudan.successor(given, memoryview(APEX))
        self.assertEqual(given, name)

    def test_types(self):
        refused = self.refused(qorshudan.NotASet, qorshudan.write_types, [1, 2, 2])
        self.assertEqual(refused.place, 2)
        self.assertEqual(qorshudan.write_types({15, 1, "A", "mx"}), qorshudan.write_types([1, 15]))
        self.assertEqual(qorshudan.write_types(iter(["TYPE1"])), b"\0\1\x40")
        for unknown in ("", "NOSUCH", "TYPE", "TYPE-1", "TYPE65536", "TYPE99999", "TYPE١", "nſ", "A ", "TYPE 1"):
            self.refused(ValueError, qorshudan.write_types, [unknown])

    def test_hashes(self):
        last = "v" * 32
        self.assertEqual(qorshudan.hash_after(last), "0" * 32)
        self.assertEqual(qorshudan.hash_before(b"\0" * 20), b"\xff" * 20)
        self.assertTrue(qorshudan.hash_between(last.upper(), b"\0" * 20, "0" * 31 + "1"))
        self.refused(qorshudan.NotAHash, qorshudan.hash_between, last, b"\0" * 19, last)
        self.refused(qorshudan.NotAHash, qorshudan.read_hash_label, "w" * 32)

    def test_refused_names_its_argument(self):
        for call, arguments, argument in (
            (qorshudan.compare, (".", "a"), "second"),
            (qorshudan.successor, (".", "a"), "apex"),
            (qorshudan.successor, ("a", "."), "name"),
            (qorshudan.closest_encloser, (".", "a", "."), "owner"),
        ):
            self.assertEqual(self.refused(qorshudan.NotAText, call, *arguments).argument, argument)

    def test_refused_is_pickled(self):
        refused = self.refused(qorshudan.BadName, qorshudan.fold, b"\x40")
        again = pickle.loads(pickle.dumps(refused))
        self.assertEqual((str(again), again.reason, again.place), (str(refused), 3, 0))

    def test_eight_threads(self):
        """Each thread has its own names, and gets what it got alone."""
        names = [[paper(f"{'x' * (1 + n % 60)}{thread}.{n}") for n in range(300)] for thread in range(8)]

        def answers(mine):
            return [(qorshudan.key(one), qorshudan.neighbours(one, APEX), qorshudan.fold(in_digits(one))) for one in mine]

        alone, together, start = [answers(mine) for mine in names], [None] * 8, threading.Barrier(8)

        def run(thread):
            start.wait()
            for _ in range(5):
                together[thread] = answers(names[thread])

        threads = [threading.Thread(target=run, args=(thread,)) for thread in range(8)]
        for thread in threads:
            thread.start()
        for thread in threads:
            thread.join()
        self.assertEqual(together, alone)


if __name__ == "__main__":
    unittest.main()
