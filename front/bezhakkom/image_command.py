"""`bin/wb image FILE .. OUT`: an ELF, or other images, as one image of this project or as a raw ROM."""
from __future__ import annotations

from pathlib import Path
from typing import Sequence

from . import board, joining, loading
from .arguments import Parser
from .initial import Boot
from .errors import Problem
from .image import IMAGE, RAW_ROM
from .installed import NAME
from .saving import FORCE_OPTION, Form, save

DESCRIPTION = """\
Writes what the machine starts with to the file OUT: as an image of this project where its name ends in .img, and else
as a raw ROM, which holds words of ROM alone. A FILE is an ELF or any other image. Several make one image. FILE@ADDRESS
is put at an address as it is, for example a file system. Where the image has nothing at the reset vector, a jump to the
entry of its first ELF is put there.
"""

EPILOG = f"""\
Examples:

  {NAME} image kernel.elf kernel.img
  {NAME} image boot.elf boot.rom
  {NAME} image boot.elf kernel.elf initrd@0x80400000 --unit 100 system.img

The image is opened with the symbols that it was made of by: {NAME} shell --symbols boot.elf --symbols kernel.elf system.img
"""


def parser() -> Parser:
    made = Parser("image", "[OPTIONS] [--force] FILE .. OUT", DESCRIPTION, EPILOG)
    made.add_argument("files", metavar="FILE", nargs="+", help="what the image is made of")
    made.add_argument("out", metavar="OUT", help="the file that is written")
    made.add_argument("--kind", metavar="KIND", help="what a single FILE is, where it can't be seen: elf, image, rom or source")
    board.add_options(made)
    made.add_argument(FORCE_OPTION, action="store_true", help="overwrites a file OUT that is no image, or may be none")
    return made


def main(arguments: Sequence[str]) -> int:
    line = parser().read(arguments)
    opening = loading.Opening.of(line, *line.files)
    driver = loading.start(loading.booted(opening) if joining.is_one(opening.files) else joining.image_of(opening), None)
    try:
        form, content = file_for(line.out, driver.boot())
    finally:
        driver.close()
    save(line.out, content, form, line.force)
    return 0


def file_for(name: str, boot: Boot) -> tuple[Form, bytes]:
    """What a file of a name is to be, a raw ROM, or an image where the name ends in .img; and its content."""
    if Path(name).suffix == ".img":
        return IMAGE, boot.write()
    content = boot.raw_rom()
    if content is None:
        raise Problem(f"{name} can't be a raw ROM: the image sets words of RAM, or byte time, unit or clock; name it .img")
    return RAW_ROM, content
