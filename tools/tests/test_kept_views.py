"""Cameras and the sun, as a script's comments keep them."""
import sys
import unittest
from pathlib import Path

sys.path.insert(0, str(Path(__file__).resolve().parent.parent))

from cga_city_lib.kept_views import cameras, sun, unread, with_camera  # noqa: E402

SCRIPT = ["# camera street 1 1.6 -3 90 -5 55", "# sun 47.37 8.54 2026-06-21T15:00+02:00", "stats", "# cameras are kept"]


class KeptViews(unittest.TestCase):
    def test_what_is_kept(self):
        self.assertEqual(cameras(SCRIPT), {"street": "1 1.6 -3 90 -5 55"})
        self.assertEqual(sun(SCRIPT), "47.37 8.54 2026-06-21T15:00+02:00")
        self.assertEqual(list(unread(SCRIPT)), [])

    def test_what_cannot_be_read_is_told(self):
        for line in (
            "# camera street 1 2",
            "# camera a-b 1 2 3 4 5 6",
            "# sun 47 8 tomorrow at 5",
            "# sun 91 8 2026-06-21T15:00Z",
        ):
            self.assertEqual([number for number, _ in unread(["stats", line])], [2], line)

    def test_a_camera_takes_the_place_of_its_name(self):
        new = "# camera street 9 9 9 9 9 9"
        self.assertEqual(with_camera(SCRIPT, "street", "9 9 9 9 9 9"), [new, *SCRIPT[1:]])
        self.assertEqual(with_camera(SCRIPT, "b", "9 9 9 9 9 9"), [SCRIPT[0], "# camera b 9 9 9 9 9 9", *SCRIPT[1:]])
        self.assertEqual(with_camera(["stats"], "b", "9 9 9 9 9 9"), ["stats", "# camera b 9 9 9 9 9 9"])


if __name__ == "__main__":
    unittest.main()
