"""morphd at a shell: `morph OPERATION FOOTPRINT FILE.. -o RESULT`, or `python3 -m morphd`."""
from __future__ import annotations

import argparse
import io
import math
import os
import re
import shlex
import sys
from collections.abc import Callable, Sequence
from contextlib import suppress
from dataclasses import dataclass
from pathlib import Path
from typing import TYPE_CHECKING, Any, NoReturn

from . import __version__, footprints
from ._crew import Crew, Writing
from ._progress import bar
from ._reports import Curves, Told, in_words, tell
from .errors import LibraryMissing
from .footprints import Footprint

if TYPE_CHECKING:
    from ._areas import Area
    from ._grains_told import Found
    from ._targets import Target
    from .curves import Spectrum
    from .files import Loaded
    from .pixels import Pixel

EXAMPLES = """\
examples:
  morph opening --disk 5 grains.png -o opened.png
  morph median --square 5 --workers -1 noisy.tif -o calm.tif
  morph threshold --at 120 grains.pgm -o mask.pbm
  morph threshold --at otsu grains.png -o mask.png
  morph hit-or-miss --hit corner.pbm --miss beside.pbm mask.pbm -o corners.pbm
  morph spectrum --octagon 3,2 --sizes 16 --pixel 0.32um mask.png --plot curve.svg --csv curve.csv
  morph grains --at otsu --clear-border --fill --min-area 5um2 --pixel 0.32um grains.png --csv grains.csv --report grains.html
  morph grains --at otsu --split 1 --clear-border grains.png --overlay outlines.png
  morph label --connectivity 4 mask.png -o labels.png
  morph reconstruct seeds.png mask.png -o found.png
  morph opening --disk 5 night/*.png --jobs 4 -o opened/
  morph white-tophat --disk 15 - < grains.png | morph threshold --at 40 - --format png > mask.png
  morph spectrum --disk 3 night/*.png --csv -

Several files go into a folder, under their own names. Exit status: 0 if all was made, 1 if some was not, 2 if the words of
the command line are wrong, 130 if it was interrupted.
"""
INTERRUPTED = 130
FLAT = ("erosion", "dilation", "opening", "closing", "gradient", "white-tophat", "black-tophat", "rank", "median", "percentile")
HELP = {
    "erosion": "the least sample under the footprint", "dilation": "the greatest sample under the footprint",
    "opening": "takes away bright details", "closing": "fills dark details", "gradient": "dilation less erosion",
    "white-tophat": "what an opening takes away", "black-tophat": "what a closing adds",
    "rank": "sample number K under the footprint", "median": "the middle sample under the footprint",
    "percentile": "the sample that Q of 100 lie below", "threshold": "the set of the samples of K or more",
    "hit-or-miss": "places where one footprint hits and another misses", "skeleton": "the skeleton of a set",
    "restored": "the set that a skeleton came from", "spectrum": "the sizes of grains, by openings of growing size",
    "grains": "counts and measures grains one by one", "label": "a number for each component of a set",
    "reconstruct": "the mask as far as it hangs together with a marker", "fill": "fills holes",
    "clear-border": "takes away what touches the frame", "distance": "how far each pixel of a set is from its outside",
}
HANGING = ("label", "reconstruct", "fill", "clear-border", "distance")


class Parser(argparse.ArgumentParser):
    """A parser that tells a fault in one line, before all else."""

    def error(self, message: str) -> NoReturn:
        # not by `exit`, which takes no standard error that is closed
        if sys.stderr is not None:
            print(f"{self.prog}: {' '.join(message.split())} ({self.prog} --help says more)", file=sys.stderr, flush=True)
        sys.exit(2)


def _whole(text: str) -> int:
    if re.fullmatch("-?[0-9]{1,9}", text) is None:
        raise argparse.ArgumentTypeError(f"{text}: a whole number is wanted")
    return int(text)


def _count(text: str) -> int:
    if (number := _whole(text)) < 0:
        raise argparse.ArgumentTypeError(f"{text}: a number from 0 on is wanted")
    return number


def _finite(text: str) -> float:
    try:
        number = float(text)
    except ValueError:
        number = math.nan
    if not math.isfinite(number):
        raise argparse.ArgumentTypeError(f"{text}: a finite number is wanted")
    return number


def _fall(text: str) -> float:
    if (number := _finite(text)) < 0:
        raise argparse.ArgumentTypeError(f"{text}: a number from 0 on is wanted")
    return number


def _channel(text: str) -> int | str:
    return int(text) if re.fullmatch("[0-9]{1,9}", text) else text


def _pair(text: str) -> tuple[int, int]:
    found = re.fullmatch("([0-9]{1,9})[x,]([0-9]{1,9})", text)
    if found is None:
        raise argparse.ArgumentTypeError(f"{text}: two whole numbers are wanted, as 3x5 or 3,5")
    return int(found[1]), int(found[2])


def _line(text: str) -> Footprint:
    length, _, angle = text.partition(",")
    return footprints.line(_whole(length), _finite(angle or "0"))


def _bitmap(path: str) -> Footprint:
    from .netpbm import Picture

    picture = Picture.of_file(Path(path).read_bytes())
    if not picture.is_set:
        raise ValueError("it is no PBM file")
    return Footprint(picture.rows())


# The options that name a footprint: how each is read, what it is called in help, and what it says there.
SHAPES: dict[str, tuple[Callable[[str], Footprint], str, str]] = {
    "disk": (lambda text: footprints.disk(_finite(text)), "RADIUS", "a disc, 2 RADIUS + 1 pixels across"),
    "square": (lambda text: footprints.square(_whole(text)), "SIDE", "a full square"),
    "rectangle": (lambda text: footprints.rectangle(*_pair(text)), "ROWSxCOLUMNS", "a full rectangle"),
    "diamond": (lambda text: footprints.diamond(_whole(text)), "RADIUS", "a square on its corner"),
    "octagon": (lambda text: footprints.octagon(*_pair(text)), "STRAIGHT,SLANTED", "an octagon, by its sides"),
    "line": (_line, "LENGTH[,ANGLE]", "a line, counterclockwise in degrees"),
    "footprint": (_bitmap, "FILE", "the black pixels of a PBM file"),
}


def _shape(name: str, bitmaps: list[str]) -> Callable[[str], Footprint]:
    """The reader of an option, with its faults as those of the command line. The names of files that are read go into `bitmaps`."""
    def read(text: str) -> Footprint:
        if name == "footprint":
            bitmaps.append(text)
        try:
            return SHAPES[name][0](text)
        except (ValueError, OSError) as fault:
            raise argparse.ArgumentTypeError(in_words(text, fault)) from None
    return read


def _level(text: str) -> float | None:
    """A level; None is Otsu's."""
    return None if text == "otsu" else _finite(text)


def _level_or_otsu(text: str) -> float | str:
    return text if text == "otsu" else _finite(text)


def _min_area(text: str) -> Area:
    from ._areas import area

    try:
        return area(text)
    except ValueError as fault:
        raise argparse.ArgumentTypeError(str(fault)) from None


def _pixel(text: str) -> Pixel:
    from .pixels import pixel_size

    try:
        return pixel_size(text)
    except ValueError as fault:
        raise argparse.ArgumentTypeError(str(fault)) from None


def _add_footprint(parser: argparse.ArgumentParser, bitmaps: list[str]) -> None:
    group = parser.add_argument_group("footprint, one of").add_mutually_exclusive_group(required=True)
    for name, (_, value, text) in SHAPES.items():
        group.add_argument(f"--{name}", dest="shape", type=_shape(name, bitmaps), metavar=value, help=text)
    parser.add_argument("--origin", type=_pair, metavar="ROW,COLUMN", help="of the footprint; its middle if left out")
    parser.add_argument("--reflected", action="store_true", help="take the reflected footprint")


def _add_edges(parser: argparse.ArgumentParser, usual: str) -> None:
    modes = ("ignore", "reflect", "mirror", "nearest", "wrap", "constant")
    told = f"what stands outside the frame; as --compat has it, or else {usual}, if left out"
    parser.add_argument("--mode", choices=modes, help=told)
    parser.add_argument("--cval", type=_finite, default=0, metavar="SAMPLE", help="the sample outside with --mode constant")
    parser.add_argument("--compat", choices=("scipy", "skimage", "opencv"), help="whose rules are taken")


def _add_common(parser: argparse.ArgumentParser, name: str) -> None:
    if name == "reconstruct":
        parser.add_argument("marker", metavar="MARKER", help="PBM, PGM, PNG or TIFF; - is standard input")
        parser.add_argument("files", nargs=1, metavar="MASK", help="a picture of the same sides and kind")
    else:
        parser.add_argument("files", nargs="+", metavar="FILE", help="PBM, PGM, PNG or TIFF; - is standard input")
    parser.add_argument("--channel", type=_channel, metavar="NAME", help="of colours: red, green, blue, alpha, or its number from 0")
    parser.add_argument("--page", type=_count, metavar="N", help="of several pages, from 0; a stack of all if left out")
    if name not in ("grains", *HANGING):
        parser.add_argument("--workers", type=int, metavar="N", help="threads for each picture, -1 for all processors")
    parser.add_argument("--jobs", type=int, default=1, metavar="N", help="pictures at the same time")
    parser.add_argument("--quiet", action="store_true", help="no progress bar")
    parser.add_argument("--force", action="store_true", help="write over files that are read, too")
    if name not in ("skeleton", "label", "distance"):
        parser.add_argument("--maxval", type=int, metavar="SAMPLE", help="the greatest sample there can be, as 4095")
    if name == "spectrum":
        parser.add_argument("--plot", metavar="FILE", help="draw the curve, as SVG, PNG or PDF")
        parser.add_argument("--csv", metavar="FILE", help="write the curve; of several files, one table; - is standard output")
    elif name == "grains":
        parser.add_argument("--csv", metavar="FILE", help="write a row for each grain; of several files, one table; - is standard output")
        parser.add_argument("--overlay", metavar="FILE", help="draw outlines and numbers of grains into the picture, as PNG")
        parser.add_argument("--report", metavar="FILE", help="write a page of HTML with all of it; of several files, one page")
    else:
        parser.add_argument("--format", choices=("pnm", "png", "tiff"), help="the result's form; if left out, as its name tells, or pnm")
        parser.add_argument("-o", "--output", metavar="FILE", help="the result; a folder for several files; - is standard output")


def _parser() -> argparse.ArgumentParser:
    shown: dict[str, Any] = {"epilog": EXAMPLES, "formatter_class": argparse.RawDescriptionHelpFormatter}
    parser = Parser("morph", description="Proved flat morphology on pictures.", **shown)
    parser.add_argument("--version", action="version", version=f"morph {__version__}")
    operations = parser.add_subparsers(dest="operation", required=True, metavar="OPERATION")
    for name, text in HELP.items():
        one, bitmaps = operations.add_parser(name, help=text, description=f"{text[0].upper()}{text[1:]}.", **shown), list[str]()
        one.set_defaults(bitmaps=bitmaps)
        if name in FLAT or name in ("skeleton", "restored", "spectrum"):
            _add_footprint(one, bitmaps)
        if name in FLAT or name == "hit-or-miss":
            _add_edges(one, "reflect" if name in ("rank", "median", "percentile") else "ignore")
        _add_numbers(one, name, bitmaps)
        _add_common(one, name)
    return parser


def _add_numbers(parser: argparse.ArgumentParser, name: str, bitmaps: list[str]) -> None:
    """The options that one operation has for itself."""
    if name == "rank":
        parser.add_argument("--number", type=int, required=True, metavar="K", help="1 is the least")
    elif name == "percentile":
        parser.add_argument("--percent", type=float, required=True, metavar="Q", help="0 to 100")
    elif name == "threshold":
        parser.add_argument("--at", type=_level, required=True, metavar="K", help="a level, or otsu, which finds one and tells it")
    elif name == "hit-or-miss":
        parser.add_argument("--hit", type=_shape("footprint", bitmaps), required=True, metavar="FILE", help="a PBM file")
        parser.add_argument("--miss", type=_shape("footprint", bitmaps), metavar="FILE", help="a PBM file; the rest of --hit if left out")
    elif name in ("skeleton", "restored"):
        parser.add_argument("--levels", type=int, required=True, metavar="L", help="1 to 254")
    elif name == "spectrum":
        parser.add_argument("--sizes", type=int, default=16, metavar="N", help="how many openings, 1 to 32")
        _add_pixel(parser, "widths")
    elif name == "grains":
        _add_grains(parser)
    elif name == "distance":
        metrics = ("euclidean", "sqeuclidean", "cityblock", "chessboard")
        parser.add_argument("--metric", choices=metrics, default=metrics[0], help="rounded to whole pixels; euclidean if left out")
    elif name == "reconstruct":
        told = "dilation, which raises the marker to the mask, or erosion; dilation if left out"
        parser.add_argument("--method", choices=("dilation", "erosion"), default="dilation", help=told)
    if name in ("grains", *HANGING[:-1]):
        told = "pixels of the set hang together by sides (4) or by corners too (8); 8 if left out"
        parser.add_argument("--connectivity", type=int, choices=(4, 8), default=8, help=told)


def _add_pixel(parser: argparse.ArgumentParser, what: str) -> None:
    told = f"the side of a pixel, as 0.32um; what a TIFF tells if left out, else {what} are in pixels"
    parser.add_argument("--pixel", type=_pixel, metavar="SIZE", help=told)


def _add_grains(parser: argparse.ArgumentParser) -> None:
    """The options of `grains`, but for files."""
    parser.add_argument("--at", type=_level_or_otsu, metavar="K", help="a level, or otsu, which finds one; of a set it is left out")
    parser.add_argument("--dark", action="store_true", help="grains are what is darker than the level, or outside the set")
    parser.add_argument("--clear-border", action="store_true", help="leave out grains that the frame cuts")
    parser.add_argument("--fill", action="store_true", help="fill holes")
    told = "part grains that touch, at necks where the distance from the ground falls by more than H pixels; 1 is usual, more joins"
    parser.add_argument("--split", type=_fall, metavar="H", help=told)
    parser.add_argument("--min-area", type=_min_area, metavar="AREA", help="the least area, as 30um2, or 30 for pixels; smaller grains go")
    _add_pixel(parser, "sizes")


@dataclass(frozen=True)
class Job:
    """One picture, and where what is made of it goes."""

    words: argparse.Namespace
    path: str
    writing: Writing

    def run(self) -> Spectrum | Found | None:
        """Reads, computes and writes. Curves and grains are given, since they may have to be told behind those of other files."""
        from . import files

        loaded = files.load(self.path, channel=self.words.channel, page=self.words.page)
        if self.words.operation == "spectrum":
            curve = self._spectrum(loaded)
            self._keep(curve)
            return curve
        if self.words.operation == "grains":
            return self._grains(loaded)
        made = self._made(loaded)
        if self.words.operation == "threshold" and not made.any():
            self._say(f"no sample reaches the threshold, so the set is empty: the greatest is {loaded.array.max()}")
        maxval, form, target = self._greatest(made, loaded), self.words.format, self.words.results.of(self.path)
        pixel = loaded.pixel if loaded.pixel is not None and loaded.pixel.micrometres else None
        if target == "-":
            files.write("-", made, maxval, pixel, form=form)
        else:
            self.writing.write(target, files.encoded_for(target, made, maxval, pixel, form))
        return None

    def _greatest(self, made: Any, loaded: Loaded) -> int | None:
        """The maxval of what is made; None for that of its type."""
        if made.dtype == bool or self.words.operation in ("label", "distance"):
            return None
        return self.words.levels + 1 if self.words.operation == "skeleton" else self._maxval(loaded)

    def _say(self, line: str) -> None:
        """Tells something of the picture beside the result."""
        tell(f"{self.path}: {line}")

    def _maxval(self, loaded: Loaded) -> int | None:
        given: int | None = getattr(self.words, "maxval", None)
        return loaded.maxval if given is None else given

    def _footprint(self) -> Footprint:
        b: Footprint = self.words.shape if self.words.origin is None else self.words.shape.at(self.words.origin)
        return -b if self.words.reflected else b

    def _made(self, loaded: Loaded) -> Any:
        from . import operators

        words, name = self.words, self.words.operation.replace("-", "_")
        if words.operation in HANGING:
            return self._hanging(loaded)
        options: dict[str, Any] = {"workers": words.workers, "axes": (1, 2) if loaded.array.ndim == 3 else None}
        if loaded.array.dtype != bool and name != "skeleton":
            options["maxval"] = self._maxval(loaded)
        if hasattr(words, "mode"):
            options.update(mode=words.mode, cval=words.cval, compat=words.compat)
        number = [value for value in (getattr(words, each, None) for each in ("number", "percent", "at")) if value is not None]
        if name == "hit_or_miss":
            arguments = [words.hit, words.miss]
        elif name == "threshold":
            arguments = number or [self._otsu(loaded)]
        elif name in ("skeleton", "restored"):
            arguments = [self._footprint(), words.levels]
            options.pop("maxval", None)
        else:
            arguments = [*number, self._footprint()]
        return getattr(operators, name)(loaded.array, *arguments, **options)

    def _hanging(self, loaded: Loaded) -> Any:
        from . import _hanging

        maxval = None if loaded.array.dtype == bool else self._maxval(loaded)
        return _hanging.made(loaded, self.words, {"maxval": maxval, "axes": (1, 2) if loaded.array.ndim == 3 else None})

    def _grains(self, loaded: Loaded) -> Found:
        """Measures grains, and writes what a picture has for itself."""
        from ._grains_told import asked_of, written
        from ._measured import measured

        words, asked = self.words, asked_of(self.words)
        for doubt in () if words.pixel else loaded.doubts:
            self._say(f"{doubt}: sizes are in pixels, unless --pixel tells a side")
        maxval = None if loaded.array.dtype == bool else self._maxval(loaded)
        found = measured(self.path, loaded, asked, words.pixel, maxval)
        if asked.is_otsu and found.asked.at is not None:
            self._say(f"the threshold is {found.asked.at:g}, by Otsu")
        return written(found, words, self.writing.write)

    def _otsu(self, loaded: Loaded) -> int:
        from .levels import otsu

        level = otsu(loaded.array)
        self._say(f"the threshold is {level}, by Otsu")
        return level

    def _spectrum(self, loaded: Loaded) -> Spectrum:
        from .curves import measured

        words = self.words
        maxval = None if loaded.array.dtype == bool else self._maxval(loaded)
        for doubt in () if words.pixel else loaded.doubts:
            self._say(f"{doubt}: widths are in pixels, unless --pixel tells a side")
        pixel = words.pixel or loaded.pixel or 1.0
        return measured(loaded.array, self._footprint(), words.sizes, pixel, maxval=maxval, workers=words.workers)

    def _keep(self, curve: Spectrum) -> None:
        """Writes a curve into files of its own."""
        words = self.words
        if words.curves is not None:
            text = io.StringIO()
            curve.to_csv(text)
            self.writing.write(words.curves.of(self.path), text.getvalue().encode())
        if words.plots is not None:
            from matplotlib.figure import Figure

            figure, drawn, target = Figure(figsize=(7, 4), layout="constrained"), io.BytesIO(), words.plots.of(self.path)
            curve.plot(figure.add_subplot())
            figure.savefig(drawn, format=Path(target).suffix[1:] or "svg")
            self.writing.write(target, drawn.getvalue())


def _targets_of(words: argparse.Namespace) -> list[Target]:
    """Where all results go. Beside the words it keeps the outputs of single files: `results`, `curves`, `plots`, and `table`, the
    file that holds the curves of all."""
    from . import _targets

    words.results = words.curves = words.plots = words.reports = words.table = None
    if words.operation not in ("spectrum", "grains"):
        words.results = _targets.of_pictures(words.operation, words.output or "-", words.format, words.files)
        found: list[Target] = words.results.targets()
        _targets.check_forms(found, words.format)
        return found
    found = []
    if words.operation == "grains":
        found += _targets_of_grains(words)
    elif words.plot is not None:
        words.plots = _targets.Output("--plot", words.plot, words.files, {"": ".svg"})
        found += words.plots.targets()
    if words.csv is not None:
        curves = _targets.Output("--csv", words.csv, words.files, {"": ".csv"})
        if words.csv == "-" or (len(words.files) > 1 and not curves.is_folder):
            words.table = words.csv
            found.append(_targets.Target(f"--csv {words.csv}", "all files", words.csv))
        else:
            words.curves = curves
            found += curves.targets()
    return found


def _targets_of_grains(words: argparse.Namespace) -> list[Target]:
    """Where drawings and reports of grains go. A report that is no folder is one of all files."""
    from . import _targets

    found: list[Target] = []
    if words.overlay is not None:
        words.plots = _targets.Output("--overlay", words.overlay, words.files, {"": ".png"})
        found += words.plots.targets()
    if words.report is not None:
        reports = _targets.Output("--report", words.report, words.files, {"": ".html"})
        if reports.is_folder:
            words.reports = reports
            found += reports.targets()
        else:
            found.append(_targets.Target(f"--report {words.report}", "all files", words.report))
    return found


def _check_grains(parser: argparse.ArgumentParser, words: argparse.Namespace) -> None:
    """Faults between the words of `grains`."""
    for option, suffix in (("overlay", ".png"), ("report", ".html")):
        to = getattr(words, option)
        is_folder = to is not None and (to.endswith("/") or os.path.isdir(to))
        if to == "-" or (to is not None and not is_folder and Path(to).suffix.lower() not in ("", suffix)):
            parser.error(f"--{option} takes a file that ends with {suffix}, or a folder")
    if words.min_area is not None and words.pixel is not None and not words.min_area.goes_with(words.pixel):
        parser.error(f"--min-area {words.min_area.text} is no area in the unit of --pixel, which is {words.pixel}")


def _check(parser: argparse.ArgumentParser, words: argparse.Namespace) -> None:
    """Faults of the command line that lie between its words."""
    from . import _targets

    if words.jobs < 1:
        parser.error("--jobs is a number from 1 on")
    if getattr(words, "workers", None) == 0:
        parser.error("--workers is a number from 1 on, or -1")
    if words.operation not in ("spectrum", "grains") and words.output is None and words.files != ["-"]:
        parser.error("-o says where the result goes")
    if words.operation == "spectrum" and words.plot == "-":
        parser.error("--plot takes a file, whose suffix tells its form")
    if words.operation == "grains":
        _check_grains(parser, words)
    if words.operation == "reconstruct":
        if words.marker == words.files[0] == "-":
            parser.error("-: the standard input is read once")
        words.bitmaps.append(words.marker)
    if getattr(words, "origin", None) is not None:
        try:
            words.shape.at(words.origin)
        except ValueError as fault:
            parser.error(str(fault))
    try:
        _targets.check(_targets_of(words), words.files, words.bitmaps, words.force)
    except _targets.WrongTarget as fault:
        parser.error(str(fault))


def _told(words: argparse.Namespace) -> Told:
    """Where what is found in all files is told."""
    if words.operation == "grains":
        from ._grains_told import Grains

        return Grains(words)
    is_told = words.table is not None or (words.curves is None and words.plots is None)
    return Curves(words.table, len(words.files) > 1, is_told)


def _run(words: argparse.Namespace, writing: Writing) -> int:
    """Runs all jobs; gives the exit status."""
    status, is_shown = 0, len(words.files) > 1 and not words.quiet and sys.stderr is not None and sys.stderr.isatty()
    for output in (words.results, words.curves, words.plots, words.reports):
        if output is not None:
            output.make_folder()
    told = _told(words)
    one_more = bar(len(words.files), "picture") if is_shown else lambda: None
    crew = Crew(words.jobs, [Job(words, path, writing).run for path in words.files], one_more)
    try:
        for path, result in zip(words.files, crew.results()):
            try:
                found = result.result()
                for doubt in () if found is None else found.doubts:
                    tell(f"{path}: {doubt}")
                if found is not None:
                    told.put(path, found)
            except (BrokenPipeError, LibraryMissing):
                raise
            except Exception as fault:
                status = 1
                tell(str(fault) if isinstance(fault, ModuleNotFoundError) else in_words(path, fault))
    finally:
        crew.cancel()
    told.end()
    return status


def _drop_output() -> None:
    """What is left for the standard output is not written at exit."""
    os.dup2(os.open(os.devnull, os.O_WRONLY), sys.stdout.fileno())


def _flush() -> None:
    """Writes what is left for the standard output."""
    try:
        if sys.stdout is not None:
            sys.stdout.flush()
    except OSError:
        _drop_output()
        raise


def main(arguments: Sequence[str] | None = None) -> int:
    """Runs the command line; gives the exit status.

    Parameters
    ----------
    arguments : sequence of str, optional
        The words behind the program's name; those of this process if left out.

    Returns
    -------
    int
        0 if all was made, 1 if some was not, 130 at an interrupt. Wrong words raise SystemExit(2), as argparse does.
    """
    parser, writing = _parser(), Writing()
    try:
        words = parser.parse_args(arguments)
        words.command = shlex.join(["morph", *(sys.argv[1:] if arguments is None else arguments)])
        _check(parser, words)
        status = _run(words, writing)
        _flush()
        return status
    except KeyboardInterrupt:
        with suppress(KeyboardInterrupt):
            # a second interrupt waits for nothing
            writing.end()
        tell("interrupted")
        return INTERRUPTED
    except BrokenPipeError:
        # whoever reads has enough
        _drop_output()
    except ImportError as fault:
        # the library, or NumPy
        tell(str(fault))
    except OSError as fault:
        tell(in_words("standard output", fault))
    return 1


if __name__ == "__main__":
    sys.exit(main())
