"""The library's calls that look through the whole frame, by their addresses: what they refuse, in which order, and that nothing else
of the caller's is written then."""
import numpy as np
import pytest

from morphd import _library

KINDS = {"u8": np.uint8, "u16": np.uint16, "set": np.uint8}


class Call:
    """A call of the library with arguments that it takes, as names with their values in its order."""

    def __init__(self, name, numbers, images=1, words=False, has_element=True, room=6, has_count=False, rows=0):
        kind = name.rpartition("_")[2]
        self.name, self.arguments, self.kept = name, dict(numbers), []
        for image in ("marker", "image")[2 - images :]:
            samples = np.array([0, 1, 0, 1, 1, 0], KINDS[kind])
            self.arguments.update({f"{image} width": 3, f"{image} height": 2})
            if kind != "set":
                self.arguments[f"{image} maxval"] = 9 if kind == "u8" else 300
            self.arguments.update({f"{image} samples": self.address(samples), f"{image} count": 6})
        if has_element:
            pixels = np.array([1, 1, 1], np.uint8)
            self.arguments.update({"pixels": self.address(pixels), "element count": 3, "columns": 3, "rows": 1, "x": 1, "y": 0})
        # one more than the call is told
        self.out = np.full(room + 1, 77, np.uint32 if words else np.uint8 if "regional" in name else KINDS[kind])
        self.arguments.update({"out": self.address(self.out), "room": room})
        self.rows = np.full(rows + 1, 77, np.uint32)
        if rows:
            self.arguments.update({"regions": self.address(self.rows), "regions room": rows})
        self.count = np.full(1, 77, np.uint32)
        if has_count:
            self.arguments["components"] = self.address(self.count)

    def address(self, array):
        self.kept.append(array)
        return array.ctypes.data

    def answer(self, **changed):
        """The answer where some arguments are others, by their names with _ for a blank."""
        given = {**self.arguments, **{name.replace("_", " "): value for name, value in changed.items()}}
        assert set(given) == set(self.arguments)
        return getattr(_library.loaded(), self.name)(*given.values())

    def refuses(self, number, **changed):
        assert self.answer(**changed) == number, (self.name, changed)
        assert all((each == 77).all() for each in (self.out, self.rows, self.count)), (self.name, changed)


def calls():
    """Each call."""
    for kind in KINDS:
        yield Call(f"morphd_reconstruct_{kind}", {"method": 0}, 2)
        yield Call(f"morphd_fill_{kind}", {})
        yield Call(f"morphd_clear_border_{kind}", {})
    for kind in ("u8", "u16"):
        yield Call(f"morphd_extrema_h_{kind}", {"kind": 0, "h": 1})
        yield Call(f"morphd_extrema_regional_{kind}", {"kind": 0})
        yield Call(f"morphd_area_{kind}", {"kind": 0, "least": 1})
    yield Call("morphd_label_set", {}, words=True, has_count=True)
    yield Call("morphd_regions_set", {}, words=True, room=21, has_count=True)
    yield Call("morphd_components_set", {}, words=True, has_count=True, rows=21)
    yield Call("morphd_area_set", {"least": 1})
    yield Call("morphd_distance_set", {"metric": 0, "top": 9}, words=True, has_element=False)


ALL = {call.name: call for call in calls()}
NUMBERS = {
    "reconstruct": [{"method": 2}, {"method": 2**32 - 1}], "extrema_h": [{"kind": 2}, {"h": 0}, {"h": 65536}],
    "extrema_regional": [{"kind": 2}], "area_u": [{"kind": 2}, {"least": 0}], "area_set": [{"least": 0}], "distance": [{"metric": 3}, {"top": 0}]}


def fresh(name):
    return next(call for call in calls() if call.name == name)


def faults(name):
    """What can be wrong with a call, in the order in which it is told: the arguments, and the number."""
    yield from (({each: value}, 47) for key, changes in NUMBERS.items() if f"morphd_{key}" in name for change in changes
                for each, value in change.items())
    for image in (("marker", "image") if "reconstruct" in name else ("image",)):
        yield from (({f"{image}_{side}": value}, 22) for side in ("width", "height") for value in (0, 8193))
        yield {f"{image}_count": 5}, 11
        if not name.endswith("set"):
            yield {f"{image}_maxval": 0}, 23
            if name.endswith("u16"):
                yield {f"{image}_maxval": 255}, 23
            else:
                yield {f"{image}_maxval": 1, "over": image}, 25
    if "reconstruct" in name:
        yield {"image_width": 2, "image_height": 3}, 53
        if not name.endswith("set"):
            yield {"image_maxval": 10 if name.endswith("u8") else 301}, 54
    if "regions" not in name:
        yield from (({"room": room}, 11) for room in (5, 7, 0))
    if "distance" not in name:
        yield from (({side: value}, 22) for side in ("columns", "rows") for value in (0, 256))
        yield {"element_count": 2}, 11
        yield from (({place: value}, 31) for place, value in (("x", 3), ("y", 1)))
        yield {"no pixel": True}, 32
    if any(word in name for word in ("label", "regions", "components", "area")):
        yield {"one way": True}, 55


def changed_call(name, changes):
    """A call, and what is changed in it."""
    call, changed = fresh(name), {}
    for each, value in changes.items():
        if each == "over":
            call.kept[0 if value == "marker" or "reconstruct" not in name else 1][1] = 2
        elif each in ("no pixel", "one way"):
            at = 2 if "reconstruct" in name else 1
            call.kept[at][:] = 0 if each == "no pixel" else [1, 1, 0]
        else:
            changed[each] = value
    return call, changed


@pytest.mark.parametrize("name", ALL)
def test_what_is_right_is_done(name):
    call = fresh(name)
    assert call.answer() == 0
    assert call.out[-1] == 77 and (not (call.out[:-1] == 77).any() or "regions" in name)


@pytest.mark.parametrize("name", ALL)
def test_refusals_and_their_order(name):
    """Each fault alone, and before each that is told behind it."""
    told = list(faults(name))
    for at, (changes, number) in enumerate(told):
        call, changed = changed_call(name, changes)
        call.refuses(number, **changed)
        for others, _ in told[at + 1 :]:
            if set(changes) & set(others):
                continue
            if number in (53, 54, 25) and any("image" in each or "marker" in each for each in others):
                # the same arguments tell both
                continue
            call, changed = changed_call(name, {**others, **changes})
            call.refuses(number, **changed)


@pytest.mark.parametrize("sides", [(8192, 8192), (4097, 4096)])
def test_too_many_samples(sides):
    """Before it is asked whether they are there."""
    for name in ALL:
        image = "marker" if "reconstruct" in name else "image"
        fresh(name).refuses(22, **{f"{image}_width": sides[0], f"{image}_height": sides[1]})


def test_regions_that_do_not_fit():
    """How many there are is told, and nothing else is written; more room than they need is right."""
    for room, answer in ((0, 11), (7, 11), (13, 11), (14, 0), (15, 0), (21, 0)):
        call = fresh("morphd_regions_set")
        assert call.answer(room=room) == answer and call.count[0] == 2
        written = 14 if answer == 0 else 0
        assert (call.out[written:] == 77).all()
        if not answer:
            assert call.out[:14].tolist() == [1, 0, 1, 1, 0, 1, 0, 0, 1, 2, 0, 1, 1, 1]
    call = fresh("morphd_regions_set")
    call.kept[0][:] = 0
    assert call.answer(room=0) == 0 and call.count[0] == 0
    call = fresh("morphd_regions_set")
    call.refuses(55, room=0, pixels=call.address(np.array([1, 1, 0], np.uint8)))


def test_labels_of_which_the_regions_do_not_fit():
    """How many there are is told, and neither array is written."""
    for room, answer in ((0, 11), (7, 11), (13, 11), (14, 0), (15, 0), (21, 0)):
        call = fresh("morphd_components_set")
        assert call.answer(regions_room=room) == answer and call.count[0] == 2
        if answer:
            assert (call.out == 77).all() and (call.rows == 77).all()
        else:
            assert call.out.tolist() == [0, 1, 0, 2, 2, 0, 77]
            assert call.rows[:14].tolist() == [1, 0, 1, 1, 0, 1, 0, 0, 1, 2, 0, 1, 1, 1] and (call.rows[14:] == 77).all()
    call = fresh("morphd_components_set")
    call.refuses(11, room=5, regions_room=0)
    call.refuses(55, regions_room=0, pixels=call.address(np.array([1, 1, 0], np.uint8)))


def test_labels_and_their_number():
    call = fresh("morphd_label_set")
    assert call.answer() == 0 and call.out[:6].tolist() == [0, 1, 0, 2, 2, 0] and call.count[0] == 2


def test_pixels_that_are_not_1_are_in_the_set():
    call = fresh("morphd_label_set")
    call.kept[0][:] = [0, 255, 0, 2, 7, 0]
    assert call.answer() == 0 and call.out[:6].tolist() == [0, 1, 0, 2, 2, 0]


def test_the_top_of_distances():
    for top, wanted in ((1, [1] * 6), (9, [9] * 6), (2**32 - 1, [2**32 - 1] * 6)):
        for metric in (0, 1, 2):
            call = fresh("morphd_distance_set")
            call.kept[0][:] = 1
            assert call.answer(metric=metric, top=top) == 0 and call.out[:6].tolist() == wanted
