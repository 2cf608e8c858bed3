"""The wheels that python/build has made: each has the library of its machine, and every module of the package."""
import os
import unittest
import zipfile
from pathlib import Path

WHEELS = Path(os.environ.get("WHEELS", ""))
SOURCES = Path(__file__).resolve().parents[1] / "src" / "hivebasket"
# e_machine of an ELF header, at byte 18
MACHINES = {"x86_64": 62, "aarch64": 183}


class Wheels(unittest.TestCase):
    def test_each(self):
        wheels = sorted(WHEELS.glob("*.whl"))
        self.assertTrue(wheels)
        for path in wheels:
            machine = path.stem.rsplit("musllinux_1_1_")[1]
            self.assertEqual(path.name, f"hivebasket-1.0.0-py3-none-manylinux2014_{machine}.musllinux_1_1_{machine}.whl")
            with zipfile.ZipFile(path) as wheel:
                library = wheel.read("hivebasket/libhivebasket.so")
                self.assertEqual((library[:5], int.from_bytes(library[18:20], "little")), (b"\x7fELF\x02", MACHINES[machine]))
                self.assertLessEqual({f"hivebasket/{source.name}" for source in SOURCES.iterdir() if source.is_file()}, set(wheel.namelist()))
                self.assertIn(f"Tag: py3-none-musllinux_1_1_{machine}\n", wheel.read("hivebasket-1.0.0.dist-info/WHEEL").decode())


if __name__ == "__main__":
    unittest.main()
