"""Files of labels from strangers, and many labels."""
from common import Case, put, unittest

from beebtube import naming
from beebtube.faults import Fault
from beebtube.labels import Labels


class Whole(list):
    """A list of which no part is copied."""

    def __getitem__(self, at):
        assert not isinstance(at, slice), "a part of all labels is copied"
        return list.__getitem__(self, at)


class Naming(Case):
    def test_letters_that_move_the_cursor_are_refused(self):
        for text in ("C000 x\x1b]0;y\x07\n", "al 00C000 .x\x1b[2J\n", "[{'x\x1b[2J':49152L}]\n"):
            with self.assertRaisesRegex(Fault, "cannot be printed"):
                naming.parse(text)

    def test_a_listing_with_such_letters_is_refused(self):
        line = "0000000015 C000 A=00 X=00 Y=00 S=FD P=24 LDA #&41"
        put(self.at("labels"), b"C000 start\n")
        put(self.at("list"), (line + "\n").encode())
        self.assertIn("; start", self.tool("labels", "--in", "labels", "list").out)
        put(self.at("list"), (line + "\x1b[2J\n").encode())
        self.tool("labels", "--in", "labels", "list", status=1)

    def test_a_name_is_found_without_a_copy_of_all_names(self):
        labels = Labels({"n%d" % at: at // 4 for at in range(200000)})
        labels._sorted = Whole(labels._sorted)
        for _ in range(1000):
            self.assertEqual(labels.names_at(40000), ["n160000", "n160001", "n160002", "n160003"])
        self.assertEqual(labels.names_at(60000), [])
        self.assertEqual(labels.near(50001), ("n199996", 2))


if __name__ == "__main__":
    unittest.main()
