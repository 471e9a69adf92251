"""Codes a clip in CABAC with libopenh264, the Debian package libopenh264-7 (versions 2.0 to 2.4 of the library).

    openh264.py CLIP FILE [NAME=VALUE]..     from a YUV4MPEG2 file of 4:2:0 to a byte stream
    openh264.py                              ends with 0 where the library is there, else with 1

The names are those of NAMES below. Pictures are IDR or P pictures. The stream has no I_PCM, and no 8x8 transform.
"""
import ctypes
import sys
from ctypes import POINTER, Structure, byref, c_bool, c_float, c_int, c_longlong, c_ubyte, c_uint, c_ushort, c_void_p

LIBRARY = "libopenh264.so.7"
I420 = 23
SKIPPED = 4
# places of functions in the encoder's table
INITIALIZE, DEFAULTS, UNINITIALIZE, ENCODE, SET_OPTION = 1, 2, 3, 4, 7
TRACE_LEVEL = 25
# what an option of the call sets: a field of the parameters, of their layer, or of the layer's slices
NAMES = {
    "profile": ("layer", "profile"),
    "slice_mode": ("slices", "mode"),
    "slices": ("slices", "count"),
    "period": ("parameters", "intra_period"),
    "references": ("parameters", "references"),
    "complexity": ("parameters", "complexity"),
    "usage": ("parameters", "usage"),
    "filter": ("parameters", "filter"),
    "control": ("parameters", "control"),
    "adaptive": ("parameters", "adaptive"),
    "qp": ("layer", "qp"),
}


def fields(kind, names):
    return [(name, kind) for name in names.split()]


class Slices(Structure):
    _fields_ = fields(c_uint, "mode count") + [("macroblocks", c_uint * 35), ("bytes", c_uint)]


class Layer(Structure):
    _fields_ = (fields(c_int, "width height") + [("rate", c_float)] + fields(c_int, "bits most_bits profile level qp")
                + [("slices", Slices), ("has_signal", c_bool), ("format", c_ubyte)] + fields(c_bool, "full has_colour")
                + fields(c_ubyte, "primaries transfer matrix") + [("has_aspect", c_bool), ("aspect", c_int)]
                + fields(c_ushort, "aspect_width aspect_height"))


class Parameters(Structure):
    _fields_ = (fields(c_int, "usage width height bits control") + [("rate", c_float)] + fields(c_int, "temporal spatial")
                + [("layers", Layer * 4)] + fields(c_int, "complexity intra_period references numbering")
                + fields(c_bool, "prefix ssei simulcast") + fields(c_int, "padding cabac") + [("may_skip", c_bool)]
                + fields(c_int, "most_bits most_qp least_qp most_bytes") + [("long_term", c_bool)]
                + fields(c_int, "long_terms long_period") + [("threads", c_ushort), ("balanced", c_bool)]
                + fields(c_int, "filter alpha beta") + fields(c_bool, "denoise background adaptive cropping scenes")
                + fields(c_bool, "lossless overshoot") + [("idr_ratio", c_int)])


class Picture(Structure):
    _fields_ = [("format", c_int), ("strides", c_int * 4), ("planes", c_void_p * 4)] + fields(c_int, "width height") + [
        ("time", c_longlong)]


class LayerUnits(Structure):
    _fields_ = (fields(c_ubyte, "temporal spatial quality") + [("frame", c_int), ("kind", c_ubyte)]
                + fields(c_int, "sequence count") + [("sizes", POINTER(c_int)), ("bytes", POINTER(c_ubyte))])


class Units(Structure):
    _fields_ = [("count", c_int), ("layers", LayerUnits * 128)] + fields(c_int, "frame size") + [("time", c_longlong)]


class Encoder:
    """The library's encoder, an object whose first word names the table of its functions."""

    def __init__(self, library):
        self.it = POINTER(POINTER(c_void_p))()
        if library.WelsCreateSVCEncoder(byref(self.it)):
            sys.exit("libopenh264 gives no encoder")

    def call(self, place, *words):
        function = ctypes.CFUNCTYPE(c_int, c_void_p, *[c_int if isinstance(it, int) else c_void_p for it in words])
        answer = function(self.it.contents[place])(self.it, *words)
        if answer:
            sys.exit(f"libopenh264 answers {answer} to its call {place}")

    def pictures_of(self, frames, width, height):
        """Yields what is written for each frame."""
        picture = Picture(format=I420, width=width, height=height, strides=(c_int * 4)(width, width // 2, width // 2, 0))
        sizes = width * height, width * height // 4
        for number, frame in enumerate(frames):
            samples = ctypes.create_string_buffer(frame, len(frame))
            start = ctypes.addressof(samples)
            picture.planes = (c_void_p * 4)(start, start + sizes[0], start + sizes[0] + sizes[1], 0)
            picture.time = 40 * number
            units = Units()
            self.call(ENCODE, byref(picture), byref(units))
            if units.frame == SKIPPED:
                sys.exit("libopenh264 leaves a picture out")
            for layer in units.layers[:units.count]:
                yield ctypes.string_at(layer.bytes, sum(layer.sizes[:layer.count]))


def parameters_of(encoder, width, height, options):
    it = Parameters()
    encoder.call(DEFAULTS, byref(it))
    layer = it.layers[0]
    it.width, it.height, it.rate, it.control, it.bits = width, height, 25, -1, 5_000_000
    it.spatial, it.threads, it.cabac = 1, 1, 1
    it.prefix = it.may_skip = it.scenes = it.background = it.adaptive = False
    layer.width, layer.height, layer.rate, layer.bits, layer.profile = width, height, 25, it.bits, 77
    for option in options:
        name, value = option.split("=")
        place, field = NAMES[name]
        setattr({"parameters": it, "layer": layer, "slices": layer.slices}[place], field, int(value))
    return it


def clip_of(file):
    """Returns the size of a clip and its frames."""
    words = file.readline().decode().split()
    width, height = (int(next(it[1:] for it in words if it[0] == letter)) for letter in "WH")
    frames = []
    while file.readline():
        frames.append(file.read(width * height * 3 // 2))
    return width, height, frames


def main(words):
    try:
        library = ctypes.CDLL(LIBRARY)
    except OSError:
        return 1
    if not words:
        return 0
    with open(words[0], "rb") as file:
        width, height, frames = clip_of(file)
    encoder = Encoder(library)
    encoder.call(SET_OPTION, TRACE_LEVEL, byref(c_int(1)))
    encoder.call(INITIALIZE, byref(parameters_of(encoder, width, height, words[2:])))
    with open(words[1], "wb") as file:
        for units in encoder.pictures_of(frames, width, height):
            file.write(units)
    encoder.call(UNINITIALIZE)
    return 0


if __name__ == "__main__":
    sys.exit(main(sys.argv[1:]))
