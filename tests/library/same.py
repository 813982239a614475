# The header says what docs/PROMISES.md says, function by function (same.py words), and it has the functions of the crate and those and the numbers of
# include/vjolthar.rs (same.py functions, same.py numbers). What is written twice doesn't stay the same by itself.
import re
import sys

HEADER = open("include/vjolthar.h").read()
RUST = open("include/vjolthar.rs").read()


def words(text):
    return " ".join(text.split())


def paragraphs(text):
    return [words(paragraph) for paragraph in re.split(r"\n\s*\n", text)]


def header_words():
    """The paragraphs of the comments, with the name of the function that follows."""
    found = []
    for comment in re.finditer(r"/\*(.*?)\*/\s*(?:uint16_t (\w+)\()?", HEADER, re.S):
        first, *others = paragraphs(re.sub(r"(?m)^ \*", "", comment[1]))
        found += [f"**`{comment[2]}`** {first}" if comment[2] else first, *others]
    return found


def promised_words():
    """The paragraphs quoted under "The C interface"."""
    section = open("docs/PROMISES.md").read().split("### The C interface")[1].split("\n#")[0]
    quoted = [line[1:] for line in section.splitlines() if line.startswith(">")]
    return paragraphs("\n".join(quoted))


def in_c(name, kind):
    """How C writes a parameter of the crate."""
    numbers = {"u8": "uint8_t", "u16": "uint16_t", "usize": "size_t"}
    if not kind.startswith("&"):
        return [f"{numbers[kind]} {name}"]
    const = "" if kind.startswith("&mut ") else "const "
    number = numbers[kind.removeprefix("&").removeprefix("mut ").strip("[]")]
    count = [f"size_t {name}_count"] if "[" in kind else []
    return [f"{const}{number} *{name}"] + count


def in_rust(parameter):
    """How Rust writes a parameter of the header."""
    kinds = {"uint8_t": "u8", "uint16_t": "u16", "size_t": "usize"}
    kind, name = re.fullmatch(r"(.*[ *])(\w+)", parameter).groups()
    number = kinds[kind.replace("const", "").strip(" *")]
    pointer = "" if "*" not in kind else "*const " if "const" in kind else "*mut "
    return f"{name}: {pointer}{number}"


def functions(text, pattern):
    """The parameters of each function, by its name."""
    return {name: re.findall(r"[^,]+", words(body).rstrip(", ")) for name, body in re.findall(pattern, text, re.S)}


def stripped(parameters):
    return [parameter.strip() for parameter in parameters]


def same_words():
    return [(one, other) for one, other in zip_all(header_words(), promised_words()) if one != other]


def zip_all(ones, others):
    longest = max(len(ones), len(others))
    return list(zip(ones + [None] * (longest - len(ones)), others + [None] * (longest - len(others))))


def same_functions():
    declared = functions(HEADER, r"uint16_t (\w+)\((.*?)\);")
    crate = functions(open("crates/vjolthar_c/src/lib.rt").read(), r'pub extern "C" fn (\w+)\((.*?)\) -> u16')
    rust = functions(RUST, r"pub fn (\w+)\((.*?)\) -> u16;")
    differences = []
    for name in sorted(declared.keys() | crate.keys() | rust.keys()):
        header = stripped(declared.get(name, []))
        ours = [c for p in stripped(crate.get(name, [])) for c in in_c(*p.split(": "))]
        differences += [(name, pair) for pair in zip_all(header, ours) if pair[0] != pair[1]]
        bound = zip_all([in_rust(p) for p in header], stripped(rust.get(name, [])))
        differences += [(name, pair) for pair in bound if pair[0] != pair[1]]
    return differences if len(declared) == 6 else ["the header has not six functions"]


def same_numbers():
    header = {(name, int(number)) for name, number in re.findall(r"VJOLTHAR_(\w+) = (\d+)", HEADER)}
    rust = {(name, int(number)) for name, number in re.findall(r"pub const (\w+): \w+ = ([\d_]+);", RUST)}
    return sorted(header ^ rust) if header else ["the header has no numbers"]


differences = {"words": same_words, "functions": same_functions, "numbers": same_numbers}[sys.argv[1]]()
for difference in differences:
    print("different:", difference)
sys.exit(bool(differences))
