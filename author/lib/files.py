"""Prints what each file is: a template, a schedule or a certificate.

Example: cwtune-files my.red fights.csv my.cert
"""
from .endings import escaped
from .regular import open_regular
from .tuning_files import AnyCertificate, Template, read_schedule
from .words import command_parser, counted


def describe(path):
    with open_regular(path) as file:
        first_field = file.read(4096).split(b",", 1)[0].strip(b"\xef\xbb\xbf\"\r\n")
    if first_field == b"opponent":
        fights = read_schedule(path)
        return f"schedule of {counted(len(fights), 'fight')}, greatest total {fights.greatest}"
    if first_field == b"cwcert":
        cert = AnyCertificate(path)
        answer = (f"none reaches the floor {cert.total}" if cert.best is None
                  else f"best {cert.best} total {cert.total}")
        settings = counted(cert.count, "setting")
        return f"certificate, version {cert.version}, of {settings}: {answer}"
    template = Template(path)
    if not template.names:
        return "text without a range line: a template of one setting"
    settings = counted(len(template.values_of_settings), "setting")
    return f"template of {settings}, constants {' '.join(template.names)}"


def make_parser():
    parser = command_parser(__doc__)
    parser.add_argument("files", nargs="+", metavar="FILE",
                        help="a template, a schedule or a certificate")
    return parser


def main():
    for path in make_parser().parse_args().files:
        print(f"{escaped(path)}: {describe(path)}")
