"""A Python host through ctypes: the same steps as example.c. Usage: example.py PATH-OF-libfanzsoreb.so"""
import ctypes
import sys

u32, u64, i64, size = ctypes.c_uint32, ctypes.c_uint64, ctypes.c_int64, ctypes.c_size_t


class Posted(ctypes.Structure):
    _fields_ = [("answer", u32), ("number", u32)]


class Counted(ctypes.Structure):
    _fields_ = [("answer", u32), ("count", u32)]


class Balance(ctypes.Structure):
    _fields_ = [("answer", u32), ("balance", i64)]


class Collateral(ctypes.Structure):
    _fields_ = [("answer", u32)] + [(n, u64) for n in ("margin", "trading", "imbalance", "risk", "yek", "total")]


lib = ctypes.CDLL(sys.argv[1])
book = (u32 * 15363)()


def call(name, result, *types):
    f = getattr(lib, "fanzsoreb_" + name)
    f.restype, f.argtypes = result, types
    return f


memory = (ctypes.c_void_p, size)
version = call("version", u32)
open_default = call("open_default_words", u32, *memory)
post = call("post_words", Posted, *memory, u32, u32, u32, u32, u64)
count = call("count_words", Counted, *memory)
day_ahead = call("day_ahead_words", Balance, *memory, u32, u32)
delivery = call("delivery_words", Balance, *memory, u32, u32)
detected = call("detected", u32, i64)
collateral = call("collateral_words", Collateral, *memory, u32, u32, u32, u64, u32, u32, u32, u32,
                  u64, i64, u64, i64, u64, i64, u32, u32, u64, u64, u32, u32)

lent = (book, len(book))
print("version %d, open %d" % (version(), open_default(*lent)))
sale = post(*lent, 1, 9000, 6, 2, 700000)
program = post(*lent, 1, 9000, 12, 0, 500000)
print("entries %d and %d of %d" % (sale.number, program.number, count(*lent).count))
for party in (1, 2):
    ahead = day_ahead(*lent, party, 9000).balance
    print("party %d: day-ahead %d, delivery %d, %s"
          % (party, ahead, delivery(*lent, party, 9000).balance, "detected" if detected(ahead) else "clear"))
c = collateral(*lent, 1, 9001, 0, 0, 0, 0, 0, 1, 0, 0, 0, 0, 0, 0, 0, 0, 0, 1000, 1, 3)
print("margin %d, YEK %d, total %d" % (c.margin, c.yek, c.total))
print("refused %d: party outside 1 to 999" % post(*lent, 1000, 9000, 1, 0, 1).answer)
