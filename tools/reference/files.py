"""What the commands share: reading files, messages, and the words that say from where and how far is lifted."""
import sys
from dataclasses import dataclass

# Neither an executable nor a graph may be longer.
FILE_BYTES = 67_108_864


@dataclass(frozen=True)
class Policy:
    """The entries to lift from, the addresses that are left to others, and whether cases of stores are told apart."""
    roots: frozenset
    externs: frozenset = frozenset()
    with_forks: bool = False


def read_file(path):
    """The bytes of a file, or one more than it may have."""
    try:
        with open(path, "rb") as file:
            return file.read(FILE_BYTES + 1)
    except OSError:
        sys.exit(fail(path, "read failed", 3))


def fail(path, message, status):
    print(f"foxdec: {path}: {message}", file=sys.stderr)
    return status


def add_policy(parser):
    def address(word):
        return int(word, 16)

    parser.add_argument("--root", action="append", default=[], type=address, metavar="H", help="one more entry")
    parser.add_argument("--extern", action="append", default=[], type=address, metavar="H", help="an address that is left out")
    parser.add_argument("--scan", action="store_true", help="each address of code that stands as a word in data is an entry")
    parser.add_argument("--fork", action="store_true", help="tell apart whether a store meets another cell")


def policy_of(image, words):
    roots = {image.entry, *words.root, *(scan_roots(image) if words.scan else ())}
    return Policy(frozenset(roots), frozenset(words.extern), words.fork)


def scan_roots(image):
    """The addresses of code among the words of segments that aren't executable."""
    found = set()
    for it in image.segments:
        if not it.executable:
            start = -it.low % 8
            words = (it.data[at:at + 8] for at in range(start, len(it.data) - 7, 8))
            found.update(int.from_bytes(word, "little") for word in words)
    return {address for address in found if image.is_code(address)}
