"""What operators have to give, by the reference model and by rims that NumPy makes: slow, and with nothing of the package in it."""
import numpy as np
import reference_model

PADS = {"reflect": "symmetric", "mirror": "reflect", "nearest": "edge", "wrap": "wrap"}
WORDS = {"erosion": "ERODE", "dilation": "DILATE", "opening": "OPEN", "closing": "CLOSE", "gradient": "GRADIENT",
         "white_tophat": "WTOPHAT", "black_tophat": "BTOPHAT"}
FLAT = tuple(WORDS)


def image(array, maxval=None):
    """The reference model's image of an array of bool, uint8 or uint16."""
    height, width = array.shape
    if array.dtype == bool:
        return reference_model.Image("BIT", width, height, 1, [int(sample) for sample in array.ravel()])
    return reference_model.Image("GREY", width, height, maxval or int(np.iinfo(array.dtype).max), [int(sample) for sample in array.ravel()])


def array(f, dtype):
    return np.array(f.samples).reshape(f.height, f.width).astype(dtype)


def made(name, samples, b, maxval=None):
    """One of the seven operators, with what lies outside left out."""
    turned = [(column, row) for row, column in b.offsets]
    return array(reference_model.OPERATIONS[WORDS[name]][2](image(samples, maxval), turned), samples.dtype)


def rimmed(samples, mode, cval, far=12):
    if mode == "constant":
        return np.pad(samples, far, constant_values=cval)
    return np.pad(samples, far, mode=PADS[mode])


def step(name, samples, offsets, mode, cval, far=12):
    """An erosion or dilation with a wide rim."""
    f = image(rimmed(samples, mode, cval, far))
    turned = [(column, row) for row, column in offsets]
    return array(reference_model.OPERATIONS[WORDS[name]][2](f, turned), samples.dtype)[far:-far, far:-far]


def less(upper, lower):
    return np.where(upper > lower, upper.astype(int) - lower, 0).astype(upper.dtype)


def made_with_rim(name, samples, b, mode, cval=0):
    """One of the seven operators with a rim around each step."""
    turned = [(-row, -column) for row, column in b.offsets]

    def one(step_name, on, offsets):
        return step(step_name, on, offsets, mode, cval)

    if name in ("erosion", "dilation"):
        return one(name, samples, b.offsets)
    if name == "gradient":
        return less(one("dilation", samples, b.offsets), one("erosion", samples, b.offsets))
    opened = one("dilation", one("erosion", samples, b.offsets), turned)
    closed = one("erosion", one("dilation", samples, b.offsets), turned)
    return {"opening": opened, "closing": closed, "white_tophat": less(samples, opened), "black_tophat": less(closed, samples)}[name]


def rank(samples, k, b, mode="ignore", cval=0, far=12):
    turned = [(column, row) for row, column in b.offsets]
    if mode == "ignore":
        return array(reference_model.rank(image(samples), turned, k), samples.dtype)
    f = image(rimmed(samples, mode, cval, far))
    return array(reference_model.rank(f, turned, k), samples.dtype)[far:-far, far:-far]
