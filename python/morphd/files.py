"""Pictures in files: Netpbm by itself, PNG and TIFF by Pillow or tifffile where they are installed.

    image = morphd.read("grains.png")
    morphd.write("opened.png", morphd.opening(image, morphd.disk(5)))

A bit a pixel is read as an array of bool, 8 bits as uint8, 16 as uint16; a stack of TIFF pages as an array of three axes,
which operators take with ``axes=(1, 2)``. Colours are refused, and so are TIFFs of several series: which of them is meant,
only the caller knows, who says it by `channel` and `page`. A greater sample is a brighter one; files that have it the other
way round are turned over. What a file is, its first bytes tell. A TIFF tells the side of its pixels, too:

    loaded = morphd.load("grains.tif")
    morphd.spectrum(loaded.array >= 120, morphd.octagon(3, 2), 16, pixel=loaded.pixel or 1)
"""
from __future__ import annotations

import io
import os
import sys
from collections.abc import Sequence
from fractions import Fraction
from pathlib import Path
from typing import IO, Any, Literal, NamedTuple

import numpy as np
from numpy.typing import ArrayLike, NDArray

from ._tiff_pixels import CENTIMETRE, pixel_in, resolution
from .netpbm import Picture
from .pixels import Pixel, pixel_size

__all__ = ["Loaded", "load", "read", "write"]

Form = Literal["pnm", "png", "tiff"]
FORMS: dict[str, Form] = {
    ".pbm": "pnm", ".pgm": "pnm", ".pnm": "pnm", ".ppm": "pnm", ".png": "png", ".tif": "tiff", ".tiff": "tiff"}
# How files begin: our own Netpbm, that of colours, PNG, and TIFF of both orders of bytes, small and big.
_NETPBM, _COLOURED, _PNG = (b"P1", b"P2", b"P4", b"P5"), (b"P3", b"P6"), b"\x89PNG"
_TIFF = (b"II*\0", b"MM\0*", b"II+\0", b"MM\0+")
# TIFF's word for what a sample means, and its values: white is 0, black is 0, three colours, a palette.
_PHOTOMETRIC, _WHITE_IS_ZERO, _BLACK_IS_ZERO, _RGB, _PALETTE = 262, 0, 1, 2, 3
# What Pillow calls channels, and we.
_WORDS = {"R": "red", "G": "green", "B": "blue", "A": "alpha", "L": "grey", "1": "grey", "I": "grey"}
Where = str | os.PathLike[str]
Side = float | str | tuple[float, str]


class Loaded(NamedTuple):
    """What a file holds: an array, the greatest sample that it may have, None for the type's, the side of a pixel, None where
    the file tells none, and why one that it tells is not taken."""

    array: NDArray[Any]
    maxval: int | None
    pixel: Pixel | None = None
    doubts: tuple[str, ...] = ()


class Choice(NamedTuple):
    """Which channel and which page of a picture is meant, None where it has only one."""

    channel: int | str | None = None
    page: int | None = None

    def place(self, names: Sequence[str], what: str) -> int:
        """The place of the channel among those that a picture has."""
        if isinstance(self.channel, str) and self.channel in names:
            return list(names).index(self.channel)
        if isinstance(self.channel, int) and 0 <= self.channel < len(names):
            return self.channel
        known = ", ".join(name or str(at) for at, name in enumerate(names))
        raise ValueError(f"{what}: it has no channel {self.channel}, but {known}")

    def check_page(self, count: int, what: str) -> None:
        """Refuses a page that is not there."""
        if self.page is not None and not 0 <= self.page < count:
            raise ValueError(f"{what}: it has no page {self.page}, but {count}, counted from 0")


def _needed(module: str, package: str, what: str) -> Any:
    """A module that is not always installed."""
    try:
        return __import__(module, fromlist=["x"])
    except ImportError as missing:
        raise ImportError(f"{what} needs {package}: apt-get install {package}") from missing


def _of_netpbm(data: bytes, what: str, choice: Choice) -> Loaded:
    choice.check_page(1, what)
    if choice.channel is not None:
        choice.place(["grey"], what)
    picture = Picture.of_file(data)
    is_usual = picture.is_set or picture.maxval in (255, 65535)
    return Loaded(np.asarray(picture), None if is_usual else picture.maxval)


def _of_pillow(file: Path | IO[bytes], what: str, choice: Choice = Choice()) -> NDArray[Any]:
    """An image of Pillow, each of its pages or the one that is meant, as an array."""
    images = _needed("PIL.Image", "python3-pil", what)
    try:
        opened = images.open(file)
    except images.UnidentifiedImageError:
        raise ValueError(f"{what}: it is no picture that Pillow reads") from None
    with opened as image:
        count = getattr(image, "n_frames", 1)
        choice.check_page(count, what)
        pages = []
        for page in range(count) if choice.page is None else [choice.page]:
            image.seek(page)
            pages.append(_of_page(image, what, choice))
    if len({(page.shape, page.dtype) for page in pages}) > 1:
        raise ValueError(f"{what}: its pages differ in their sides or types, so they are no stack: choose one page")
    return pages[0] if len(pages) == 1 else np.stack(pages)


def _channel_of(image: Any, what: str, choice: Choice) -> Any:
    """One channel of an image of Pillow."""
    if len(image.getbands()) > 1 and any(";16" in str(tile[3]) for tile in image.tile):
        raise ValueError(f"{what}: of colours of 16 bits Pillow reads 8: bring them into a TIFF, which python3-tifffile reads")
    held = image.convert("RGB") if image.mode == "P" else image
    names = [_WORDS.get(band, band) for band in held.getbands()]
    at = choice.place(names, what)
    return held if len(names) == 1 else held.getchannel(at)


def _of_page(image: Any, what: str, choice: Choice) -> NDArray[Any]:
    # Pillow turns dark samples over in pages of 1 and 8 bits alone
    is_dark = getattr(image, "tag_v2", {}).get(_PHOTOMETRIC) == _WHITE_IS_ZERO
    if choice.channel is not None:
        image = _channel_of(image, what, choice)
    if image.mode == "1":
        return np.asarray(image, bool)
    if image.mode == "L":
        return np.asarray(image, np.uint8)
    if image.mode == "I" or image.mode.startswith("I;16"):
        held = np.asarray(image)
        if held.min() >= 0 and held.max() <= 65535:
            return _brighter_is_greater(held.astype(np.uint16), is_dark, 65535)
    more = ": choose one channel" if len(image.getbands()) > 1 or image.mode == "P" else ""
    raise ValueError(f"{what}: a picture of mode {image.mode} is no set and no levels of 8 or 16 bits{more}")


def _brighter_is_greater(array: NDArray[Any], is_dark: bool, top: int) -> NDArray[Any]:
    """The samples, turned over where the least is the brightest."""
    if not is_dark:
        return array
    turned: NDArray[Any] = ~array if array.dtype == np.bool_ else array.dtype.type(top) - array
    return turned


def _channel_names(page: Any) -> list[str]:
    """The channels of a TIFF's page; those without a meaning have no name."""
    more = ["alpha" if kind in (1, 2) else "" for kind in page.extrasamples]
    if page.photometric in (_RGB, _PALETTE):
        return ["red", "green", "blue", *more]
    return ["grey", *more] if page.photometric in (_WHITE_IS_ZERO, _BLACK_IS_ZERO) else [""] * page.samplesperpixel


def _channel_in(source: Any, page: Any, at: int | None) -> NDArray[Any]:
    """The samples of a TIFF's page or series, of one channel if a place is given."""
    array: NDArray[Any] = source.asarray()
    if at is not None and page.photometric == _PALETTE:
        array = (page.colormap[at] >> 8).astype(np.uint8)[array]
    elif at is not None and "S" in source.axes:
        array = array.take(at, source.axes.index("S"))
    return array


def _pages_of(file: Any, what: str, choice: Choice) -> tuple[Any, list[Any]]:
    """The page that is meant, or the only series, and the pages that it is made of."""
    choice.check_page(len(file.pages), what)
    if choice.page is not None:
        page = file.pages[choice.page]
        return page, [page]
    if len(file.series) > 1:
        raise ValueError(f"{what}: it has {len(file.series)} series of pages, which differ, so they are no stack: choose one page")
    return file.series[0], [page for page in file.series[0].pages if page is not None]


def _tiff_of_pillow(file: IO[bytes], what: str, choice: Choice) -> Loaded:
    array = _of_pillow(file, what, choice)
    file.seek(0)
    with _needed("PIL.Image", "python3-pil", what).open(file) as image:
        image.seek(choice.page or 0)
        return Loaded(array, None, *pixel_in(getattr(image, "tag_v2", {})))


def _of_tiff(file: IO[bytes], what: str, choice: Choice) -> Loaded:
    try:
        import tifffile
    except ImportError:
        return _tiff_of_pillow(file, what, choice)
    with tifffile.TiffFile(file) as held:
        source, pages = _pages_of(held, what, choice)
        page, meanings = pages[0], {each.photometric for each in pages}
        is_grey = page.samplesperpixel == 1 and page.photometric in (_WHITE_IS_ZERO, _BLACK_IS_ZERO)
        if len(meanings) > 1 or not (is_grey or choice.channel is not None):
            kind = "a picture in colours" if len(meanings) == 1 else "a stack of pages of several kinds"
            raise ValueError(f"{what}: {kind} is no set and no levels of 8 or 16 bits: choose one {'page' if is_grey else 'channel'}")
        at = None if choice.channel is None else choice.place(_channel_names(page), what)
        try:
            array = _channel_in(source, page, at)
        except ValueError:
            # a compression for which tifffile asks for another package; Pillow has most of them
            file.seek(0)
            return _tiff_of_pillow(file, what, choice)
        if array.dtype not in (np.bool_, np.uint8, np.uint16) or not 2 <= array.ndim <= 3:
            raise ValueError(f"{what}: an array of {array.dtype} and {array.shape} is no set and no levels of 8 or 16 bits, "
                             "nor a stack of such")
        array = _brighter_is_greater(array, page.photometric == _WHITE_IS_ZERO, (1 << page.bitspersample) - 1)
        return Loaded(array, None, *pixel_in({tag.code: tag.value for tag in page.tags}))


def _standard(name: Literal["stdin", "stdout"]) -> IO[bytes]:
    """The bytes of the standard input or output, which a shell may have closed."""
    stream = getattr(sys, name)
    if stream is None:
        raise OSError(f"the standard {'input' if name == 'stdin' else 'output'} is closed")
    held: IO[bytes] = stream.buffer
    return held


def _of_open(file: IO[bytes], what: str, choice: Choice, is_piped: bool) -> Loaded:
    """What an open file holds. Of a pipe only what we know by its first bytes is taken; of other files, what Pillow knows, too."""
    if not file.seekable():
        file = io.BytesIO(file.read())
    start = file.read(4)
    file.seek(0)
    if start in _TIFF:
        return _of_tiff(file, what, choice)
    if start[:2] in _NETPBM or (is_piped and start != _PNG and start[:2] not in _COLOURED):
        return _of_netpbm(file.read(), what, choice)
    return Loaded(_of_pillow(file, what, choice), None)


def load(path: Where | IO[bytes], *, channel: int | str | None = None, page: int | None = None) -> Loaded:
    """Reads a picture with the maxval and the side of a pixel that its file tells.

    Parameters
    ----------
    path : str, path or binary file
        Netpbm, PNG, TIFF, or what else Pillow knows; '-' is the standard input.
    channel : int or str, optional
        Which channel of a picture in colours: 'red', 'green', 'blue', 'alpha' or 'grey', or its number from 0.
    page : int, optional
        Which page of several, from 0.

    Returns
    -------
    Loaded
        ``array``, ``maxval``, ``pixel`` and ``doubts``. The maxval is None where it is that of the array's type. The pixel is that
        of a TIFF that tells its resolution: its side in micrometres, or in the unit that ImageJ names; None of other files, and where
        pixels are no squares. It is None, too, where a TIFF tells exactly 72 or 96 pixels to the inch, which are those of screens
        and not measured; then `doubts` has a line that says so. Give `pixel=` where they were measured.

    Raises
    ------
    Refused
        20 to 26, where it is no whole PBM or PGM.
    ValueError
        Where it is no set and no levels of 8 or 16 bits, or has no such channel or page.
    OSError
        Where it cannot be read.
    """
    choice = Choice(channel, page)
    if path == "-":
        return _of_open(io.BytesIO(_standard("stdin").read()), "standard input", choice, True)
    if not isinstance(path, (str, os.PathLike)):
        return _of_open(io.BytesIO(path.read()), str(getattr(path, "name", "an open file")), choice, True)
    with Path(path).open("rb") as file:
        return _of_open(file, str(path), choice, False)


def read(path: Where | IO[bytes], *, channel: int | str | None = None, page: int | None = None) -> NDArray[Any]:
    """Reads a picture.

    Parameters
    ----------
    path : str, path or binary file
        Netpbm, PNG, TIFF, or what else Pillow knows; '-' is the standard input.
    channel : int or str, optional
        Which channel of a picture in colours: 'red', 'green', 'blue', 'alpha' or 'grey', or its number from 0.
    page : int, optional
        Which page of several, from 0.

    Returns
    -------
    ndarray
        Of bool for a set, of uint8 or uint16 for levels; three axes for a stack.

    Raises
    ------
    Refused, ValueError, OSError
        As `load`.
    """
    return load(path, channel=channel, page=page).array


def form_of(path: Where) -> Form:
    """The form that the suffix of a name tells."""
    suffix = Path(path).suffix.lower()
    if suffix not in FORMS:
        raise ValueError(f"{path}: the suffix tells how it is written: {', '.join(FORMS)}")
    return FORMS[suffix]


def encoded(image: ArrayLike, form: Form, maxval: int | None = None, pixel: Side | None = None) -> bytes:
    """The bytes of a picture's file.

    Parameters
    ----------
    image : array_like
        Of bool, uint8 or uint16; two axes, or three for a stack in a TIFF.
    form : {'pnm', 'png', 'tiff'}
        'pnm' is a raw PBM of a set and a raw PGM of levels.
    maxval : int, optional
        What a PGM tells as its maxval; the type's if left out.
    pixel : float, str or (float, str), optional
        The side of a pixel, as '0.32um' or ``load(path).pixel``: what a TIFF tells as its resolution. Other files do not tell it.

    Returns
    -------
    bytes
    """
    array = np.asarray(image)
    if array.dtype != np.bool_ and array.dtype.newbyteorder("=") not in (np.uint8, np.uint16):
        raise TypeError(f"pictures are written of bool, uint8 and uint16, and this is an array of {array.dtype}")
    if form == "pnm":
        return Picture.of_array(array, maxval).file()
    if form == "png" and array.ndim != 2:
        raise ValueError("a PNG has two axes; a stack goes into a TIFF")
    made = io.BytesIO()
    if form == "tiff":
        _write_tiff(made, array, None if pixel is None else resolution(pixel_size(pixel)))
    else:
        _write_pillow(made, [array], "PNG")
    return made.getvalue()


def encoded_for(path: Where, image: ArrayLike, maxval: int | None, pixel: Side | None, form: Form | None) -> bytes:
    """The bytes of a picture's file of this name, whose suffix tells the form if none is named."""
    form = form or form_of(path)
    if form == "pnm" and Path(path).suffix.lower() == ".pbm" and np.asarray(image).dtype != np.bool_:
        raise ValueError(f"{path}: a PBM holds a set, and these are levels: name it .pgm")
    return encoded(image, form, maxval, pixel)


def write(
    path: Where | IO[bytes], image: ArrayLike, maxval: int | None = None, pixel: Side | None = None, *, form: Form | None = None,
) -> None:
    """Writes a picture.

    Parameters
    ----------
    path : str, path or binary file
        '-' is the standard output.
    image : array_like
        Of bool, uint8 or uint16; two axes, or three for a stack in a TIFF.
    maxval : int, optional
        What a PGM tells as its maxval; the type's if left out.
    pixel : float, str or (float, str), optional
        The side of a pixel, as '0.32um' or ``load(path).pixel``: what a TIFF tells as its resolution. Other files do not tell it.
    form : {'pnm', 'png', 'tiff'}, optional
        What is written. If left out the suffix of a name tells it (.pbm, .pgm, .pnm, .png, .tif or .tiff); the standard output
        and an open file get a raw PBM or PGM.

    Raises
    ------
    ValueError
        Where the suffix is none of these, or levels are to become a .pbm, or a stack something else than a TIFF.
    TypeError
        Where the array is of another type.
    OSError
        Where it cannot be written.
    """
    if path == "-":
        out = _standard("stdout")
        out.write(encoded(image, form or "pnm", maxval, pixel))
        out.flush()
    elif not isinstance(path, (str, os.PathLike)):
        path.write(encoded(image, form or "pnm", maxval, pixel))
    else:
        Path(path).write_bytes(encoded_for(path, image, maxval, pixel, form))


def _write_tiff(file: IO[bytes], array: NDArray[Any], density: Fraction | None) -> None:
    """Writes a TIFF, with so many pixels to a centimetre where that is known."""
    try:
        import tifffile
    except ImportError:
        tifffile = None
    if tifffile is None or array.dtype == np.bool_:
        # Pillow writes a bit a pixel
        told = {} if density is None else {"resolution_unit": CENTIMETRE, "x_resolution": density, "y_resolution": density}
        _write_pillow(file, list(array) if array.ndim == 3 else [array], "TIFF", **told)
        return
    ratio = density and density.as_integer_ratio()
    told = {} if ratio is None else {"resolution": (ratio, ratio), "resolutionunit": "CENTIMETER"}
    tifffile.imwrite(file, array, photometric="minisblack", **told)


def _write_pillow(file: IO[bytes], pages: list[NDArray[Any]], form: str, **told: Any) -> None:
    images = _needed("PIL.Image", "python3-pil", f"a {form}")
    made = [images.fromarray(page if page.dtype == np.bool_ else page.astype(page.dtype.newbyteorder("="))) for page in pages]
    more = {"save_all": True, "append_images": made[1:]} if len(made) > 1 else {}
    made[0].save(file, form, **more, **told)
