"""What CERT.inputs has to say (docs/FORMATS.md). Shares no code with author.lib.cert_inputs, but
for the table of the hills."""
import hashlib, os, pathlib

from author.lib.program import HILLS

SUFFIX = ".inputs"


def digest_of(text):
    """Returns the size and the SHA-256 digest of a text."""
    return f"{len(text)} {hashlib.sha256(text).hexdigest()}"


def read_words(words):
    """Returns the options of a command `tune`, and its files."""
    options, files, words = {}, [], list(words[1:])
    while words:
        word = words.pop(0)
        if word == "--":
            files += words
            break
        if word in ("--all", "--explain", "--progress"):
            options[word[2:]] = True
        elif word.startswith("--"):
            name, _, value = word[2:].partition("=")
            options[name] = value or words.pop(0)
        else:
            files.append(word)
    return options, files


def text_of(words, folder, version):
    """Returns the text for a command `tune` that ran in a folder, which has all of its files."""
    options, (template, schedule, cert, *opponents) = read_words(words)
    hill = HILLS[options.get("hill", "94nop")]._asdict()
    rules = [options.get(name, number) for name, number in hill.items()]
    method = "all" if "all" in options else f"cache {options.get('cache', 4096)}"
    files = [("template", template), ("schedule", schedule)]
    files += [("opponent", name) for name in opponents]
    lines = ["cwtune inputs 1", f"program {version}", f"rules {' '.join(map(str, rules))}",
             f"part {options.get('part', '1/1')}", f"method {method}",
             f"cert {digest_of(pathlib.Path(folder, cert).read_bytes())}",
             f"folder {os.path.realpath(folder)}"]
    lines += [f"{word} {digest_of(pathlib.Path(folder, name).read_bytes())} {name}"
              for word, name in files]
    return "".join(f"{line}\n" for line in lines).encode()


def is_right(text, cert, folder):
    """Returns whether a text is the CERT.inputs of `cert` and of files in `folder` as they are."""
    try:
        lines = [line.split(" ", 1) for line in os.fsdecode(text).removesuffix("\n").split("\n")]
        said = dict(lines)
        files = [rest.split(" ", 2) for word, rest in lines
                 if word in ("template", "schedule", "opponent")]
        right = all(f"{size} {digest}" == digest_of(pathlib.Path(folder, name).read_bytes())
                    for size, digest, name in files)
        return (right and len(files) >= 3 and said["cert"] == digest_of(cert)
                and said["folder"] == os.path.realpath(folder) and text.endswith(b"\n"))
    except (KeyError, ValueError, OSError):
        return False
