"""Where the package is built, the repository's tools that xtc-docs uses are put beside its modules. In the repository itself they stand in tools/."""

from pathlib import Path
from shutil import copy

from setuptools import setup
from setuptools.command.build_py import build_py

TOOLS = Path(__file__).resolve().parents[2] / "tools"
NAMES = ("cut_pages", "jsonml_to_xml", "paths.py", "read_store", "replay", "xml_to_jsonml")


class WithTools(build_py):
    def run(self) -> None:
        super().run()
        beside = Path(self.build_lib, "xtc_client", "tool", "beside")
        beside.mkdir(parents=True, exist_ok=True)
        for name in NAMES:
            copy(TOOLS / name, beside / name)


setup(cmdclass={"build_py": WithTools})
