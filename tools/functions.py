"""The public functions of the libraries and the methods of their impls of traits, but for a library's private traits, whose methods no
caller can name, in the order of crates.txt. For tools/contracts and tools/routines."""
import pathlib, re, sys

FN = re.compile(r"^ *pub fn (\w+)", re.M)
IMPL = re.compile(r"^impl(<[^>]*>)? (\w+)(?:<[^>]*>)? \{", re.M)
MOD = re.compile(r"^ *(?:pub )?mod (?!tests;)\w+", re.M)
OF_TRAIT = re.compile(r"^impl(<[^>]*>)? (\w+)(?:<([^>]*)>)? for (\w+)(?:<[^>]*>)? \{\n(.*?)^\}", re.M | re.S)
PRIVATE = re.compile(r"^trait (\w+)", re.M)
COMPARED = re.compile(r"^#\[derive\([^)]*\bPartialEq\b[^)]*\)\]\n(?:pub )?(?:enum|struct) (\w+)", re.M)


def of_crate(text):
    """Of each public function in a file: the type that it is a method of (or ''), its name, its text up to its body, and whether it or
    its type has type parameters: it has a routine at each type."""
    impls = [(m.start(), m.group(2), m.group(1)) for m in IMPL.finditer(text)]
    for m in FN.finditer(text):
        close = re.search(r"\n *\{\n", text[m.end():])
        method = m.group().startswith("    ")
        inside, parameters = [(name, of) for at, name, of in impls if at < m.start()][-1] if method else ("", None)
        head = text[m.start():m.end() + close.start()]
        yield inside, m.group(1), head, has_types(parameters) or has_types(head[m.end() - m.start():])


def has_types(parameters):
    """Whether parameters in angle brackets, if there are any, begin with a type and not with a lifetime."""
    return re.match(r"<(?!')", parameters or "") is not None


def of_traits(text):
    """Of each method of an impl of a trait in a file that is not private there: what the toolchain calls the impl, the method's name, its
    type, and whether it or the impl has type parameters."""
    def word(it):
        return "Unit" if it == "()" else it[:1].upper() + it[1:]
    private = PRIVATE.findall(text)
    for m in OF_TRAIT.finditer(text):
        parameters, trait, arg, of, body = m.groups()
        if trait in private:
            continue
        for name, own, taken in re.findall(r"^    fn (\w+)(<[^(]*>)?\(([^)]*)\)", body, re.M):
            generic = has_types(parameters) or has_types(own) or "impl " in taken
            yield word(of) + trait + word(arg or ""), name, arg if trait == "From" else of, generic
    for m in COMPARED.finditer(text):
        yield m.group(1) + "PartialEq", "eq", m.group(1), False


def of_libraries():
    """The crates that have public functions or methods of a trait, each with its public functions."""
    for line in pathlib.Path("crates.txt").read_text().splitlines():
        crate = line.split("#")[0].split(":")[0].strip()
        lib = pathlib.Path(f"crates/{crate}/src/lib.rt")
        if not crate or not lib.exists():
            continue
        text = lib.read_text()
        if MOD.search(text):
            sys.exit(f"{lib}: a library with modules: tools/functions.py looks at src/lib.rt alone")
        found = list(of_crate(text))
        if found or any(of_traits(text)):
            yield crate, found


def of_impls(crate):
    """The methods of a library's impls of traits."""
    return list(of_traits(pathlib.Path(f"crates/{crate}/src/lib.rt").read_text()))
