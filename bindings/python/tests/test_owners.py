"""Lists of owners: the papers' cases, and the ends of a gap beside the closest encloser."""

import unittest

import qorshudan
from qorshudan import Owners


class Lists(unittest.TestCase):
    NAMES = ["example.", "a.example.", "yljkjljk.a.example.", "Z.a.example.", "zABC.a.EXAMPLE.", "z.example.", r"\001.z.example.", r"\200.z.example."]

    def test_rfc_4034(self):
        """RFC 4034 section 6.1, in its order, but for *.z.example.; each is found, and so is a name behind each."""
        owners = Owners(self.NAMES, apex="Example.")
        self.assertEqual(len(owners), 8)
        for index, name in enumerate(self.NAMES):
            self.assertEqual(owners.find(name).owner, index)
            self.assertLessEqual(owners.find(name).looks, 4)
            under = r"\000." + name
            self.assertEqual(owners.find(under).owner, index)
            self.assertIsNotNone(qorshudan.closest_encloser(under, owners[index], owners.next(index)))
        self.assertIsNone(owners.find("a.").owner)

    def test_refused(self):
        for names, index in ((["a.example."], 0), ([], 0), (["example.", "b.example.", "a.example."], 2), (["example.", "example."], 1), (["example.", "com."], 1)):
            with self.assertRaises(qorshudan.NotAList) as raised:
                Owners(names, apex="example.")
            self.assertEqual(raised.exception.place, index)
        with self.assertRaises(qorshudan.NotAList) as raised:
            Owners([b"\x00", b"\x01A\x00"], apex=b"\x00")
        self.assertEqual(raised.exception.place, 1)
        with self.assertRaises(qorshudan.BadName):
            Owners(["example."], apex="example.").find(b"\x01")
        with self.assertRaises(qorshudan.BadLimit):
            Owners(["example."], apex="example.", limit=256)

    def test_sizes(self):
        names = [b"\x00"] + [b"\x05%05d\x00" % index for index in range(16384)]
        self.assertEqual(Owners(names[:16384], apex=b"\x00").find(b"\x010\x00").looks, 15)
        with self.assertRaises(qorshudan.NotAList) as raised:
            Owners(names, apex=b"\x00")
        self.assertEqual(raised.exception.place, 0)


if __name__ == "__main__":
    unittest.main()
