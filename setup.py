"""What pyproject.toml can't say: the program that is shipped, bin/r3kwb.xz, is unpacked into the package."""
import hashlib
import lzma
import shutil
from pathlib import Path

from setuptools import setup
from setuptools.command.build_py import build_py

SHIPPED = Path(__file__).resolve().parent / "bin"


class WithProgram(build_py):
    """Builds the package, and puts the program beside its modules."""

    def run(self) -> None:
        super().run()
        if self.editable_mode:
            return  # the package starts bin/r3kwb then
        folder = Path(self.build_lib, "bezhakkom")
        content = lzma.decompress((SHIPPED / "r3kwb.xz").read_bytes())
        if f"program {hashlib.sha256(content).hexdigest()}" not in (SHIPPED / "r3kwb.txt").read_text().splitlines():
            raise SystemExit("bin/r3kwb.xz is damaged, or not the program that bin/r3kwb.txt names")
        program = folder / "r3kwb"
        program.write_bytes(content)
        program.chmod(0o755)
        shutil.copy(SHIPPED / "r3kwb.txt", folder)


setup(cmdclass={"build_py": WithProgram})
